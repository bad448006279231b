//! The C boundary: the structs and functions of include/psp.h, name by name and in its order.

use std::os::raw::c_double;

/// PSP_VERSION: 0.9.0, as major times 10,000, minor times 100, patch.
pub const VERSION: u32 = 900;

// Every function: all is well.
pub const ACCEPTED: u32 = 0;

// Listing, and everything that lists first.
pub const OVER_LIMIT: u32 = 1;
pub const ENDS_TOO_SOON: u32 = 2;
pub const WRONG_SIGNATURE: u32 = 3;
pub const WRONG_VERSION: u32 = 4;
pub const WRONG_MARK: u32 = 5;
pub const WRONG_LENGTH: u32 = 6;
pub const OUT_OF_PLACE: u32 = 7;
pub const WRONG_FIELD: u32 = 8;
pub const NOT_EXPECTED: u32 = 9;
pub const MISSING: u32 = 10;
pub const NOT_READABLE: u32 = 11;
pub const TABLE_FULL: u32 = 12;

// Reading a plane.
pub const PLANE_NO_ROOM: u32 = 20;
pub const PLANE_COUNT_128: u32 = 21;
pub const PLANE_DATA_MISSING: u32 = 22;
pub const PLANE_TOO_MUCH: u32 = 23;
pub const PLANE_UNKNOWN_CODE: u32 = 24;
pub const PLANE_RAW_LENGTH: u32 = 25;
pub const PLANE_OVER_LIMIT: u32 = 26;
pub const PLANE_OUTSIDE: u32 = 27;

// Packing a plane.
pub const PACK_NO_ROOM: u32 = 30;
pub const PACK_OVER_LIMIT: u32 = 31;

// Placing a plane on a canvas.
pub const CANVAS_WRONG: u32 = 40;
pub const RECT_WRONG: u32 = 41;
pub const PLANE_WRONG: u32 = 42;

// Views, and facts at a place.
pub const NO_PALETTE: u32 = 43;
pub const NO_RAMP: u32 = 44;
pub const NO_LAYER: u32 = 45;
pub const NO_SELECTION: u32 = 46;
pub const NO_ALPHA: u32 = 47;

// Saving a table, and reading it back.
pub const SAVED_LENGTH: u32 = 70;
pub const SAVED_VERSION: u32 = 71;
pub const SAVED_COUNT: u32 = 72;
pub const SAVED_NO_ROOM: u32 = 73;
pub const SAVED_SIDES: u32 = 74;

// Limits.
pub const INPUT_LIMIT: usize = 1_073_741_824;
pub const PLANE_LIMIT: usize = 900_000_000;
pub const SIDE_LIMIT: u32 = 30_000;
pub const LAYER_LIMIT: u32 = 64;
pub const ENTRY_NUMBERS: usize = 14;
pub const SAVED_HEAD: usize = 9;
pub const SAVED_ENTRY: usize = 56;
pub const SAVED_SIDE: u32 = 4_096;

/// An entry of the table: a block of the file. What a kind does not fill is 0. An entry of level 1
/// or 2 lies in the last one before it that is one level up: a channel in a layer, in the selection
/// or in an alpha channel, which its layer number alone does not tell.
#[repr(C)]
#[derive(Clone, Copy, Debug, Default, PartialEq, Eq)]
pub struct Entry {
    /// 0 image, 2 palette, 3 bank, 4 layer, 5 channel, 6 selection, 7 alpha bank, 8 alpha channel;
    /// any id when skipped.
    pub id: u32,
    /// 0 or 1.
    pub skipped: u32,
    /// 0 main; 1 in the bank, the selection or the alpha bank; 2 in a layer or an alpha channel.
    pub level: u32,
    /// Where the block's header starts.
    pub place: u32,
    /// Bytes owned.
    pub owned: u32,
    /// Layers count from 0 in file order, and alpha channels likewise; a channel has the number of
    /// what it lies in.
    pub layer: u32,
    /// In a layer 0 image, 1 transparency mask, 2 user mask; in the selection 3, in an alpha
    /// channel 4.
    pub bitmap: u32,
    /// 0 composite, 1 red, 2 green, 3 blue.
    pub channel: u32,
    /// Content start.
    pub start: u32,
    /// Stored length.
    pub stored: u32,
    /// Of the plane, in pixels.
    pub width: u32,
    /// Of the plane, in rows.
    pub height: u32,
    /// Plane length in bytes: row times height.
    pub plane: u32,
    /// Bytes of a row: padded to 4, or the width itself.
    pub row: u32,
}

/// The answer of a listing; the place of 8 is that of the field.
#[repr(C)]
#[derive(Clone, Copy, Debug, PartialEq, Eq)]
pub struct Listed {
    pub number: u32,
    pub place: usize,
    pub count: usize,
}

/// An entry that was asked for, or that there is none.
#[repr(C)]
#[derive(Clone, Copy, Debug, PartialEq, Eq)]
pub struct Asked {
    /// 1: `entry` is the one asked for; 0: there is no such entry in this room.
    pub found: u32,
    /// Where there is none, the final answer of the listing in this room; zeros where it was found.
    pub listed: Listed,
    /// Zeros where there is none.
    pub entry: Entry,
}

/// The answer of reading a plane.
#[repr(C)]
#[derive(Clone, Copy, Debug, PartialEq, Eq)]
pub struct Plane {
    pub number: u32,
    pub place: usize,
    pub bytes: usize,
}

/// The answer of packing a plane.
#[repr(C)]
#[derive(Clone, Copy, Debug, PartialEq, Eq)]
pub struct Packed {
    pub number: u32,
    pub length: usize,
}

/// Signed corners, the lower right one exclusive.
#[repr(C)]
#[derive(Clone, Copy, Debug, Default, PartialEq, Eq)]
pub struct Rect {
    pub left: i32,
    pub top: i32,
    pub right: i32,
    pub bottom: i32,
}

/// The answer of writing a table as a file.
#[repr(C)]
#[derive(Clone, Copy, Debug, PartialEq, Eq)]
pub struct Saved {
    pub number: u32,
    pub length: usize,
}

/// The answer of reading such a file back.
#[repr(C)]
#[derive(Clone, Copy, Debug, PartialEq, Eq)]
pub struct Restored {
    pub number: u32,
    pub count: usize,
}

/// A part of a slice that the caller lent.
#[repr(C)]
#[derive(Clone, Copy, Debug, PartialEq, Eq)]
pub struct Part {
    pub number: u32,
    pub which: u32,
    pub start: usize,
    pub length: usize,
}

/// A value with its metric: 0 unknown, 1 dots an inch, 2 dots a centimetre.
#[repr(C)]
#[derive(Clone, Copy, Debug)]
pub struct Resolution {
    pub value: c_double,
    pub metric: u8,
}

/// The image attributes chunk.
#[repr(C)]
#[derive(Clone, Copy, Debug)]
pub struct ImageChunk {
    pub width: i32,
    pub height: i32,
    pub bits: u64,
    pub resolution: Resolution,
    pub compression: u16,
    pub depth: u16,
    pub planes: u16,
    pub colours: u32,
    pub grey: u8,
    pub total: u32,
    pub active: i32,
    pub layers: u16,
}

/// The image facts, zeros when refused.
#[repr(C)]
#[derive(Clone, Copy, Debug)]
pub struct ImageFacts {
    pub number: u32,
    pub image: ImageChunk,
}

/// A border rectangle, and the saved rectangle inside it.
#[repr(C)]
#[derive(Clone, Copy, Debug, Default, PartialEq, Eq)]
pub struct Area {
    pub border: Rect,
    pub saved: Rect,
}

/// The layer information chunk; a flag is 0 or 1.
#[repr(C)]
#[derive(Clone, Copy, Debug)]
pub struct LayerChunk {
    pub name: [u8; 256],
    pub kind: u8,
    pub image: Area,
    pub opacity: u8,
    pub blending: u8,
    pub visible: u8,
    pub transparency_protected: u8,
    pub group: u8,
    pub mask: Area,
    pub linked: u8,
    pub disabled: u8,
    pub inverted: u8,
    pub blends: u16,
    pub ranges: [u8; 40],
    pub bitmaps: u16,
    pub channels: u16,
}

/// A layer's facts, zeros when refused.
#[repr(C)]
#[derive(Clone, Copy, Debug)]
pub struct LayerFacts {
    pub number: u32,
    pub layer: LayerChunk,
}

/// The selection information chunk.
#[repr(C)]
#[derive(Clone, Copy, Debug)]
pub struct SelectionChunk {
    pub area: Area,
    pub bitmaps: u16,
    pub channels: u16,
}

/// The selection's facts, zeros when refused.
#[repr(C)]
#[derive(Clone, Copy, Debug)]
pub struct SelectionFacts {
    pub number: u32,
    pub selection: SelectionChunk,
}

/// The alpha channel information chunk.
#[repr(C)]
#[derive(Clone, Copy, Debug)]
pub struct AlphaChunk {
    pub name: [u8; 256],
    pub area: Area,
    pub bitmaps: u16,
    pub channels: u16,
}

/// An alpha channel's facts, zeros when refused.
#[repr(C)]
#[derive(Clone, Copy, Debug)]
pub struct AlphaFacts {
    pub number: u32,
    pub alpha: AlphaChunk,
}

/// Dots per centimetre, where there are any.
#[repr(C)]
#[derive(Clone, Copy, Debug)]
pub struct Dots {
    pub known: u32,
    pub value: c_double,
}

extern "C" {
    pub fn psp_version() -> u32;
    pub fn psp_list(input: *const u8, length: usize, table: *mut u32, numbers: usize) -> Listed;
    pub fn psp_count(input: *const u8, length: usize, room: usize) -> Listed;
    pub fn psp_list_records(
        input: *const u8,
        length: usize,
        table: *mut u32,
        numbers: usize,
        records: *mut Entry,
        room: usize,
    ) -> Listed;
    pub fn psp_entry_at(input: *const u8, length: usize, room: usize, k: usize) -> Asked;
    pub fn psp_read_plane(
        input: *const u8,
        length: usize,
        start: usize,
        stored: usize,
        plane: usize,
        code: u32,
        dest: *mut u8,
        room: usize,
    ) -> Plane;
    pub fn psp_unpack(
        stream: *const u8,
        length: usize,
        dest: *mut u8,
        room: usize,
        plane: usize,
    ) -> Plane;
    pub fn psp_pack(plane: *const u8, length: usize, dest: *mut u8, room: usize) -> Packed;
    pub fn psp_place(
        width: u32,
        height: u32,
        canvas: *mut u8,
        pixels: usize,
        r: Rect,
        plane: *const u8,
        length: usize,
        row: u32,
    ) -> u32;
    pub fn psp_intersect(a: Rect, b: Rect) -> Rect;
    pub fn psp_write_table(table: *const u32, numbers: usize, dest: *mut u8, room: usize) -> Saved;
    pub fn psp_read_table(
        file: *const u8,
        length: usize,
        table: *mut u32,
        numbers: usize,
    ) -> Restored;
    pub fn psp_palette(
        input: *const u8,
        length: usize,
        room: usize,
        ramp: *const u8,
        ramp_length: usize,
    ) -> Part;
    pub fn psp_name(input: *const u8, length: usize, room: usize, k: u32) -> Part;
    pub fn psp_alpha_name(input: *const u8, length: usize, room: usize, k: u32) -> Part;
    pub fn psp_read_image_facts(input: *const u8, length: usize, room: usize) -> ImageFacts;
    pub fn psp_read_layer_facts(input: *const u8, length: usize, room: usize, k: u32)
        -> LayerFacts;
    pub fn psp_read_selection_facts(input: *const u8, length: usize, room: usize)
        -> SelectionFacts;
    pub fn psp_read_alpha_facts(input: *const u8, length: usize, room: usize, k: u32)
        -> AlphaFacts;
    pub fn psp_layer_at(input: *const u8, length: usize, place: usize) -> LayerFacts;
    pub fn psp_name_at(input: *const u8, length: usize, place: usize) -> Part;
    pub fn psp_selection_at(input: *const u8, length: usize, place: usize) -> SelectionFacts;
    pub fn psp_alpha_at(input: *const u8, length: usize, place: usize) -> AlphaFacts;
    pub fn psp_alpha_name_at(input: *const u8, length: usize, place: usize) -> Part;
    pub fn psp_dots_per_centimetre(value: c_double, metric: u8) -> Dots;
}

#[cfg(test)]
mod tests {
    use super::*;
    use std::mem::size_of;

    /// The sizes that a C compiler gives the structs of psp.h on a 64-bit machine.
    #[test]
    fn structs_have_the_sizes_of_the_header() {
        assert_eq!(size_of::<Entry>(), 56);
        assert_eq!(size_of::<Listed>(), 24);
        assert_eq!(size_of::<Asked>(), 88);
        assert_eq!(size_of::<Plane>(), 24);
        assert_eq!(size_of::<Packed>(), 16);
        assert_eq!(size_of::<Rect>(), 16);
        assert_eq!(size_of::<Saved>(), 16);
        assert_eq!(size_of::<Restored>(), 16);
        assert_eq!(size_of::<Part>(), 24);
        assert_eq!(size_of::<Resolution>(), 16);
        assert_eq!(size_of::<ImageChunk>(), 64);
        assert_eq!(size_of::<ImageFacts>(), 72);
        assert_eq!(size_of::<LayerChunk>(), 384);
        assert_eq!(size_of::<LayerFacts>(), 388);
        assert_eq!(size_of::<SelectionChunk>(), 36);
        assert_eq!(size_of::<SelectionFacts>(), 40);
        assert_eq!(size_of::<AlphaChunk>(), 292);
        assert_eq!(size_of::<AlphaFacts>(), 296);
        assert_eq!(size_of::<Dots>(), 16);
    }

    #[test]
    fn limits_are_those_of_the_header() {
        let header = include_str!("../../../include/psp.h");
        let limits = [
            ("INPUT_LIMIT", INPUT_LIMIT),
            ("PLANE_LIMIT", PLANE_LIMIT),
            ("SIDE_LIMIT", SIDE_LIMIT as usize),
            ("LAYER_LIMIT", LAYER_LIMIT as usize),
            ("ENTRY_NUMBERS", ENTRY_NUMBERS),
            ("SAVED_HEAD", SAVED_HEAD),
            ("SAVED_ENTRY", SAVED_ENTRY),
            ("SAVED_SIDE", SAVED_SIDE as usize),
        ];
        for (name, limit) in limits {
            let line = format!("\n#define PSP_{} {} ", name, limit);
            assert!(header.contains(&line), "include/psp.h: {}", line);
        }
    }

    #[test]
    fn every_file_that_has_the_version_has_this_one() {
        let [major, minor, patch] = [VERSION / 10_000, VERSION / 100 % 100, VERSION % 100];
        let header = include_str!("../../../include/psp.h");
        for (name, part) in [("MAJOR", major), ("MINOR", minor), ("PATCH", patch)] {
            let line = format!("#define PSP_VERSION_{} {}\n", name, part);
            assert!(header.contains(&line), "include/psp.h: {}", line);
        }
        let version = format!("{}.{}.{}", major, minor, patch);
        let line = format!("\nversion = \"{}\"\n", version);
        assert!(include_str!("Cargo.toml").contains(&line), "{}", line);
        let line = format!("\nconst VERSION: &str = \"{}\";\n", version);
        let command = include_str!("../main.rs");
        assert!(command.contains(&line), "main.rs: {}", line);
        let line = format!("const VERSION: u32 = {};\n", VERSION);
        let library = include_str!("../../../crates/psp/src/version.rt");
        assert!(library.contains(&line), "version.rt: {}", line);
    }
}
