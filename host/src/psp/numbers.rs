//! The library's functions with document 01's numbers as their answers (0 is accepted), name by
//! name as include/psp.h has them, over slices.
//!
//! The header asks two things of a caller, and the language gives both. A pointer is that of so many
//! elements: a slice's always is. No buffer that is written overlaps another: `&mut` is borrowed
//! alone. So every function here is safe for every argument.

use super::ffi;

pub use super::ffi::{AlphaFacts, Asked, Dots, Entry, ImageFacts, LayerFacts, Listed};
pub use super::ffi::{Packed, Plane, Rect, Restored, Saved, SelectionFacts};

/// A part of a lent slice, empty when refused.
#[derive(Clone, Copy, Debug, PartialEq, Eq)]
pub struct View<'a> {
    pub number: u32,
    pub bytes: &'a [u8],
}

/// Gives the version of the library that is linked, as `ffi::VERSION` has it.
pub fn version() -> u32 {
    // SAFETY: only a value travels.
    unsafe { ffi::psp_version() }
}

/// Lists an input into a table of numbers, fourteen an entry; the rest of the table is untouched.
pub fn list(input: &[u8], table: &mut [u32]) -> Listed {
    // SAFETY: both slices are valid for their lengths, and the table is borrowed alone.
    unsafe { ffi::psp_list(input.as_ptr(), input.len(), table.as_mut_ptr(), table.len()) }
}

/// Gives the answer of a listing in a room of so many entries and stores nothing.
pub fn count(input: &[u8], room: usize) -> Listed {
    // SAFETY: the slice is valid for its length.
    unsafe { ffi::psp_count(input.as_ptr(), input.len(), room) }
}

/// Lists an input into a table and into records alike, in the smaller room of the two.
pub fn list_records(input: &[u8], table: &mut [u32], records: &mut [Entry]) -> Listed {
    // SAFETY: the slices are valid for their lengths; the two that are written are borrowed alone.
    unsafe {
        ffi::psp_list_records(
            input.as_ptr(),
            input.len(),
            table.as_mut_ptr(),
            table.len(),
            records.as_mut_ptr(),
            records.len(),
        )
    }
}

/// Gives entry `k` of a listing in a room of so many entries, from 0, and where there is none the
/// listing's answer; nothing is kept or stored, and behind the entry nothing is looked at.
pub fn entry_at(input: &[u8], room: usize, k: usize) -> Asked {
    // SAFETY: the slice is valid for its length, and nothing is written.
    unsafe { ffi::psp_entry_at(input.as_ptr(), input.len(), room, k) }
}

/// Reads a stored channel into the first `plane` bytes of `dest`, `code` being the compression.
pub fn read_plane(
    input: &[u8],
    start: usize,
    stored: usize,
    plane: usize,
    code: u32,
    dest: &mut [u8],
) -> Plane {
    // SAFETY: both slices are valid for their lengths, and dest is borrowed alone.
    unsafe {
        ffi::psp_read_plane(
            input.as_ptr(),
            input.len(),
            start,
            stored,
            plane,
            code,
            dest.as_mut_ptr(),
            dest.len(),
        )
    }
}

/// Reads a stream of run-length packets into the first `plane` bytes of `dest`.
pub fn unpack(stream: &[u8], dest: &mut [u8], plane: usize) -> Plane {
    // SAFETY: both slices are valid for their lengths, and dest is borrowed alone.
    unsafe {
        ffi::psp_unpack(
            stream.as_ptr(),
            stream.len(),
            dest.as_mut_ptr(),
            dest.len(),
            plane,
        )
    }
}

/// Packs a plane into `dest` as run-length packets.
pub fn pack(plane: &[u8], dest: &mut [u8]) -> Packed {
    // SAFETY: both slices are valid for their lengths, and dest is borrowed alone.
    unsafe { ffi::psp_pack(plane.as_ptr(), plane.len(), dest.as_mut_ptr(), dest.len()) }
}

/// Places an 8-bit plane of rectangle `r` on a canvas of one byte a pixel; a row has `row` bytes, as
/// the entry says. Gives the number.
pub fn place(width: u32, height: u32, canvas: &mut [u8], r: Rect, plane: &[u8], row: u32) -> u32 {
    // SAFETY: both slices are valid for their lengths, and the canvas is borrowed alone.
    unsafe {
        ffi::psp_place(
            width,
            height,
            canvas.as_mut_ptr(),
            canvas.len(),
            r,
            plane.as_ptr(),
            plane.len(),
            row,
        )
    }
}

/// Gives the pixels that two rectangles share, and 0,0,0,0 where there are none.
pub fn intersect(a: Rect, b: Rect) -> Rect {
    // SAFETY: only values travel.
    unsafe { ffi::psp_intersect(a, b) }
}

/// Writes the whole entries of a table into `dest` as a file, of the version that their sides give
/// it; its rest is untouched.
pub fn write_table(table: &[u32], dest: &mut [u8]) -> Saved {
    // SAFETY: both slices are valid for their lengths, and dest is borrowed alone.
    unsafe { ffi::psp_write_table(table.as_ptr(), table.len(), dest.as_mut_ptr(), dest.len()) }
}

/// Reads a saved table of version 1 or 2 back into a table of numbers, fourteen an entry; its rest is
/// untouched.
pub fn read_table(file: &[u8], table: &mut [u32]) -> Restored {
    // SAFETY: both slices are valid for their lengths, and the table is borrowed alone.
    unsafe { ffi::psp_read_table(file.as_ptr(), file.len(), table.as_mut_ptr(), table.len()) }
}

/// Shows the palette's entries, four bytes each, or the ramp of a grey image without one.
pub fn palette<'a>(input: &'a [u8], room: usize, ramp: &'a [u8]) -> View<'a> {
    // SAFETY: both slices are valid for their lengths, and nothing is written.
    let part =
        unsafe { ffi::psp_palette(input.as_ptr(), input.len(), room, ramp.as_ptr(), ramp.len()) };
    view(if part.which == 1 { ramp } else { input }, part)
}

/// Shows the name of layer `k`: its bytes before the first zero, or all 256.
pub fn name(input: &[u8], room: usize, k: u32) -> View<'_> {
    // SAFETY: the slice is valid for its length, and nothing is written.
    let part = unsafe { ffi::psp_name(input.as_ptr(), input.len(), room, k) };
    view(input, part)
}

/// Shows the name of alpha channel `k`, likewise.
pub fn alpha_name(input: &[u8], room: usize, k: u32) -> View<'_> {
    // SAFETY: the slice is valid for its length, and nothing is written.
    let part = unsafe { ffi::psp_alpha_name(input.as_ptr(), input.len(), room, k) };
    view(input, part)
}

/// Gives every field of the image chunk.
pub fn image_facts(input: &[u8], room: usize) -> ImageFacts {
    // SAFETY: the slice is valid for its length, and nothing is written.
    unsafe { ffi::psp_read_image_facts(input.as_ptr(), input.len(), room) }
}

/// Gives every field of the chunk of layer `k`.
pub fn layer_facts(input: &[u8], room: usize, k: u32) -> LayerFacts {
    // SAFETY: the slice is valid for its length, and nothing is written.
    unsafe { ffi::psp_read_layer_facts(input.as_ptr(), input.len(), room, k) }
}

/// Gives every field of the selection's chunk.
pub fn selection_facts(input: &[u8], room: usize) -> SelectionFacts {
    // SAFETY: the slice is valid for its length, and nothing is written.
    unsafe { ffi::psp_read_selection_facts(input.as_ptr(), input.len(), room) }
}

/// Gives every field of the chunk of alpha channel `k`.
pub fn alpha_facts(input: &[u8], room: usize, k: u32) -> AlphaFacts {
    // SAFETY: the slice is valid for its length, and nothing is written.
    unsafe { ffi::psp_read_alpha_facts(input.as_ptr(), input.len(), room, k) }
}

/// Gives every field of the chunk of the layer whose header starts at a place that a listing gave;
/// nothing is listed again.
pub fn layer_at(input: &[u8], place: usize) -> LayerFacts {
    // SAFETY: the slice is valid for its length, and nothing is written.
    unsafe { ffi::psp_layer_at(input.as_ptr(), input.len(), place) }
}

/// Shows the name of that layer: its bytes before the first zero, or all 256.
pub fn name_at(input: &[u8], place: usize) -> View<'_> {
    // SAFETY: the slice is valid for its length, and nothing is written.
    let part = unsafe { ffi::psp_name_at(input.as_ptr(), input.len(), place) };
    view(input, part)
}

/// Gives every field of the chunk of the selection at such a place.
pub fn selection_at(input: &[u8], place: usize) -> SelectionFacts {
    // SAFETY: the slice is valid for its length, and nothing is written.
    unsafe { ffi::psp_selection_at(input.as_ptr(), input.len(), place) }
}

/// Gives every field of the chunk of the alpha channel at such a place.
pub fn alpha_at(input: &[u8], place: usize) -> AlphaFacts {
    // SAFETY: the slice is valid for its length, and nothing is written.
    unsafe { ffi::psp_alpha_at(input.as_ptr(), input.len(), place) }
}

/// Shows the name of that alpha channel, likewise.
pub fn alpha_name_at(input: &[u8], place: usize) -> View<'_> {
    // SAFETY: the slice is valid for its length, and nothing is written.
    let part = unsafe { ffi::psp_alpha_name_at(input.as_ptr(), input.len(), place) };
    view(input, part)
}

/// Gives the dots per centimetre of a resolution, where there are any.
pub fn dots_per_centimetre(value: f64, metric: u8) -> Dots {
    // SAFETY: only values travel.
    unsafe { ffi::psp_dots_per_centimetre(value, metric) }
}

/// The part lies inside its slice by the library's promise; one that did not would show nothing.
fn view(lent: &[u8], part: ffi::Part) -> View<'_> {
    let end = part.start.saturating_add(part.length);
    View {
        number: part.number,
        bytes: lent.get(part.start..end).unwrap_or(&[]),
    }
}
