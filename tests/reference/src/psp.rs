//! Document 01 with requests (i), (iv), (vi), (vii), (ix) and (x) of document 02, written
//! from their text: the listing of a Paint Shop Pro 3.0 file, with a table and without,
//! the plane reader, the packer, the canvas, the views and the saved table.
//!
//! Nothing here aims at speed or at a small memory. Every function returns an
//! answer for every input; sums that a file can make large are done in 64 bits.

pub mod canvas;
pub mod chunks;
pub mod listing;
mod parents;
pub mod pencil;
pub mod planes;
pub mod program;
pub mod rectangle;
mod rules;
pub mod saved;
pub mod views;

/// The answer numbers, with the names of document 01's table; behind them those
/// of the views that request (vii) adds, and of the saved table, requests (iv) and
/// (ix).
pub mod number {
    pub const ACCEPTED: u32 = 0;
    pub const INPUT_OVER_LIMIT: u32 = 1;
    pub const ENDS_TOO_SOON: u32 = 2;
    pub const SIGNATURE_WRONG: u32 = 3;
    pub const VERSION_NOT_3_0: u32 = 4;
    pub const MARK_WRONG: u32 = 5;
    pub const LENGTH_DOES_NOT_FIT: u32 = 6;
    pub const OUT_OF_PLACE: u32 = 7;
    pub const VALUE_NOT_PERMITTED: u32 = 8;
    pub const NOT_EXPECTED: u32 = 9;
    pub const PARTS_MISSING: u32 = 10;
    pub const COMPRESSION_2: u32 = 11;
    pub const TABLE_FULL: u32 = 12;

    pub const DESTINATION_SHORT: u32 = 20;
    pub const COUNT_128: u32 = 21;
    pub const STREAM_SHORT: u32 = 22;
    pub const STREAM_LONG: u32 = 23;
    pub const CODE_UNKNOWN: u32 = 24;
    pub const RAW_LENGTH_DIFFERS: u32 = 25;
    pub const PLANE_OVER_LIMIT: u32 = 26;
    pub const PART_OUTSIDE: u32 = 27;

    pub const PACKED_DOES_NOT_FIT: u32 = 30;
    pub const PACKER_PLANE_OVER_LIMIT: u32 = 31;

    pub const CANVAS_WRONG: u32 = 40;
    pub const RECTANGLE_WRONG: u32 = 41;
    /// The row is of no form, or the plane is not so many rows of it.
    pub const PLANE_WRONG: u32 = 42;
    pub const NO_PALETTE_AT_24: u32 = 43;
    pub const RAMP_WRONG: u32 = 44;
    pub const NO_SUCH_LAYER: u32 = 45;
    pub const NO_SELECTION: u32 = 46;
    pub const NO_SUCH_ALPHA: u32 = 47;

    /// Under nine bytes, or not as long as it says; when writing, longer than
    /// four bytes can say.
    pub const SAVED_LENGTH_WRONG: u32 = 70;
    pub const SAVED_VERSION_UNKNOWN: u32 = 71;
    pub const SAVED_COUNT_WRONG: u32 = 72;
    pub const SAVED_NO_ROOM: u32 = 73;
    /// A side that the version does not have, or none that it is there for.
    pub const SAVED_VERSION_DISAGREES: u32 = 74;
}

pub const INPUT_LIMIT: u64 = 1_073_741_824;
pub const PLANE_LIMIT: u64 = 900_000_000;
pub const SIDE_LIMIT: i64 = 30_000;
pub const LAYER_LIMIT: u16 = 64;
pub const LEAST_COORDINATE: i32 = -32_768;
pub const GREATEST_COORDINATE: i32 = 32_767;
pub const RAMP_LENGTH: u64 = 1_024;

/// The part of `input` of that length from `start`, if it is wholly present.
/// The sum is checked: neither number has to be sensible.
pub fn part(input: &[u8], start: u64, length: u64) -> Option<&[u8]> {
    let end = start.checked_add(length)?;
    if end > input.len() as u64 {
        return None;
    }
    // Both are at most the input's length, so they fit in usize.
    input.get(start as usize..end as usize)
}
