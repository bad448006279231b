//! The proved library as safe functions over slices: the crate `psp`.
//!
//! Each function tests its own arguments, allocates nothing, and gives what it is asked for or the
//! [`Refusal`], whose number is document 01's. A program that wants the numbers themselves has the
//! same functions in [`numbers`].

pub mod ffi;
pub mod numbers;
pub mod refusal;

pub use ffi::{AlphaChunk, Area, Entry, ImageChunk, LayerChunk, Rect, Resolution, SelectionChunk};
pub use ffi::{ENTRY_NUMBERS, INPUT_LIMIT, LAYER_LIMIT, PLANE_LIMIT, SIDE_LIMIT};
pub use ffi::{SAVED_ENTRY, SAVED_HEAD, SAVED_SIDE};
pub use refusal::{Refusal, RefusedListing, RefusedPlane};

use std::fmt::{self, Display, Formatter};

/// A version of the library.
#[derive(Clone, Copy, Debug, PartialEq, Eq, PartialOrd, Ord)]
pub struct Version {
    pub major: u32,
    pub minor: u32,
    pub patch: u32,
}

impl Display for Version {
    fn fmt(&self, f: &mut Formatter<'_>) -> fmt::Result {
        write!(f, "{}.{}.{}", self.major, self.minor, self.patch)
    }
}

/// Gives the version of the library that is linked.
pub fn version() -> Version {
    let number = numbers::version();
    Version {
        major: number / 10_000,
        minor: number / 100 % 100,
        patch: number % 100,
    }
}

/// Lists an input into a table of numbers, fourteen an entry, and gives the count of entries. They
/// stand in front of the table, also those found before a refusal, and its rest is untouched.
pub fn list(input: &[u8], table: &mut [u32]) -> Result<usize, RefusedListing> {
    listed(numbers::list(input, table))
}

/// Gives the count of a listing in a room of so many entries and stores nothing: with
/// `usize::MAX` it is what a table needs.
pub fn count(input: &[u8], room: usize) -> Result<usize, RefusedListing> {
    listed(numbers::count(input, room))
}

/// Lists an input into a table and into records alike, in the smaller room of the two. The entries
/// stand in front of both, also those found before a refusal, and both rests are untouched.
pub fn list_records(
    input: &[u8],
    table: &mut [u32],
    records: &mut [Entry],
) -> Result<usize, RefusedListing> {
    listed(numbers::list_records(input, table, records))
}

/// What a listing has as the entry that was asked for.
#[derive(Clone, Copy, Debug, PartialEq, Eq)]
pub enum Asked {
    /// The entry.
    Entry(Entry),
    /// There is none: the final answer of the listing, its count or its refusal.
    Final(Result<usize, RefusedListing>),
}

/// Gives entry `k` of a listing in a room of so many entries, from 0, or the listing's final answer.
/// It walks the input anew each time, up to the entry and not behind it, and nothing is stored. With
/// room `usize::MAX` every entry of the input is there.
pub fn entry_at(input: &[u8], room: usize, k: usize) -> Asked {
    let asked = numbers::entry_at(input, room, k);
    match asked.found {
        0 => Asked::Final(listed(asked.listed)),
        _ => Asked::Entry(asked.entry),
    }
}

/// Reads a stored channel into the first `plane` bytes of `dest`, `code` being the compression, and
/// gives how many were written. The rest of `dest` is untouched, and all of it when refused.
pub fn read_plane(
    input: &[u8],
    start: usize,
    stored: usize,
    plane: usize,
    code: u32,
    dest: &mut [u8],
) -> Result<usize, RefusedPlane> {
    read(numbers::read_plane(input, start, stored, plane, code, dest))
}

/// Reads a stream of run-length packets into the first `plane` bytes of `dest`, and gives how many
/// were written. The rest of `dest` is untouched, and all of it when refused.
pub fn unpack(stream: &[u8], dest: &mut [u8], plane: usize) -> Result<usize, RefusedPlane> {
    read(numbers::unpack(stream, dest, plane))
}

/// Packs a plane into `dest` as run-length packets, and gives the length of the packed form: at most
/// `plane.len() + (plane.len() + 126) / 127`. With that much room it does not measure first, and is
/// nearly twice as fast.
pub fn pack(plane: &[u8], dest: &mut [u8]) -> Result<usize, Refusal> {
    let packed = numbers::pack(plane, dest);
    good(packed.number, packed.length)
}

/// Places an 8-bit plane of rectangle `r` on a canvas of one byte a pixel. A row has `row` bytes, as
/// the entry says: the rectangle's width, or that padded to 4. A plane that is placed again changes
/// nothing.
pub fn place(
    width: u32,
    height: u32,
    canvas: &mut [u8],
    r: Rect,
    plane: &[u8],
    row: u32,
) -> Result<(), Refusal> {
    good(numbers::place(width, height, canvas, r, plane, row), ())
}

/// Gives the pixels that two rectangles share, and 0,0,0,0 where there are none. Several may be
/// clipped in any order and grouping: the result is one.
pub fn intersect(a: Rect, b: Rect) -> Rect {
    numbers::intersect(a, b)
}

/// Writes the whole entries of a table into `dest` as a file, and gives its length: [`SAVED_HEAD`]
/// bytes, and [`SAVED_ENTRY`] an entry. Its version is 2 where an entry has a width or height over
/// [`SAVED_SIDE`], and otherwise 1. The rest of `dest` is untouched, and all of it when refused.
pub fn write_table(table: &[u32], dest: &mut [u8]) -> Result<usize, Refusal> {
    let saved = numbers::write_table(table, dest);
    good(saved.number, saved.length)
}

/// Reads a saved table of version 1 or 2 back into a table of numbers, fourteen an entry, and gives
/// the count of entries. A version that its sides would not give it is refused. The rest of the table
/// is untouched, and all of it when refused.
pub fn read_table(file: &[u8], table: &mut [u32]) -> Result<usize, Refusal> {
    let restored = numbers::read_table(file, table);
    good(restored.number, restored.count)
}

/// Shows the palette's entries, four bytes each, or the ramp of a grey image without one.
pub fn palette<'a>(input: &'a [u8], room: usize, ramp: &'a [u8]) -> Result<&'a [u8], Refusal> {
    let view = numbers::palette(input, room, ramp);
    good(view.number, view.bytes)
}

/// Shows the name of layer `k`: its bytes before the first zero, or all 256.
pub fn name(input: &[u8], room: usize, k: u32) -> Result<&[u8], Refusal> {
    let view = numbers::name(input, room, k);
    good(view.number, view.bytes)
}

/// Shows the name of alpha channel `k`, likewise.
pub fn alpha_name(input: &[u8], room: usize, k: u32) -> Result<&[u8], Refusal> {
    let view = numbers::alpha_name(input, room, k);
    good(view.number, view.bytes)
}

/// Gives every field of the image chunk.
pub fn image_facts(input: &[u8], room: usize) -> Result<ImageChunk, Refusal> {
    let facts = numbers::image_facts(input, room);
    good(facts.number, facts.image)
}

/// Gives every field of the chunk of layer `k`.
pub fn layer_facts(input: &[u8], room: usize, k: u32) -> Result<LayerChunk, Refusal> {
    let facts = numbers::layer_facts(input, room, k);
    good(facts.number, facts.layer)
}

/// Gives every field of the selection's chunk.
pub fn selection_facts(input: &[u8], room: usize) -> Result<SelectionChunk, Refusal> {
    let facts = numbers::selection_facts(input, room);
    good(facts.number, facts.selection)
}

/// Gives every field of the chunk of alpha channel `k`.
pub fn alpha_facts(input: &[u8], room: usize, k: u32) -> Result<AlphaChunk, Refusal> {
    let facts = numbers::alpha_facts(input, room, k);
    good(facts.number, facts.alpha)
}

/// Gives every field of the chunk of the layer whose header starts at a place, that of an entry of a
/// listing, refused or not. Nothing is listed again. It is refused where no such header stands, good
/// by itself and with its chunk inside the input; whether the block may stand there is not asked.
pub fn layer_at(input: &[u8], place: usize) -> Result<LayerChunk, Refusal> {
    let facts = numbers::layer_at(input, place);
    good(facts.number, facts.layer)
}

/// Shows the name of that layer: its bytes before the first zero, or all 256.
pub fn name_at(input: &[u8], place: usize) -> Result<&[u8], Refusal> {
    let view = numbers::name_at(input, place);
    good(view.number, view.bytes)
}

/// Gives every field of the chunk of the selection at a place, as [`layer_at`] does.
pub fn selection_at(input: &[u8], place: usize) -> Result<SelectionChunk, Refusal> {
    let facts = numbers::selection_at(input, place);
    good(facts.number, facts.selection)
}

/// Gives every field of the chunk of the alpha channel at a place, as [`layer_at`] does.
pub fn alpha_at(input: &[u8], place: usize) -> Result<AlphaChunk, Refusal> {
    let facts = numbers::alpha_at(input, place);
    good(facts.number, facts.alpha)
}

/// Shows the name of that alpha channel, likewise.
pub fn alpha_name_at(input: &[u8], place: usize) -> Result<&[u8], Refusal> {
    let view = numbers::alpha_name_at(input, place);
    good(view.number, view.bytes)
}

/// Gives the dots per centimetre of a resolution, where there are any.
pub fn dots_per_centimetre(value: f64, metric: u8) -> Option<f64> {
    let dots = numbers::dots_per_centimetre(value, metric);
    match dots.known {
        0 => None,
        _ => Some(dots.value),
    }
}

fn good<T>(number: u32, given: T) -> Result<T, Refusal> {
    match Refusal::of(number) {
        None => Ok(given),
        Some(refusal) => Err(refusal),
    }
}

fn listed(answer: ffi::Listed) -> Result<usize, RefusedListing> {
    let ffi::Listed { place, count, .. } = answer;
    let refused = |refusal| RefusedListing {
        refusal,
        place,
        count,
    };
    good(answer.number, count).map_err(refused)
}

fn read(answer: ffi::Plane) -> Result<usize, RefusedPlane> {
    let place = answer.place;
    let refused = |refusal| RefusedPlane { refusal, place };
    good(answer.number, answer.bytes).map_err(refused)
}
