//! The entry points that are compared, behind one trait: the reference's own,
//! or those of the library that is held to it.

use crate::case::{Placing, Stored};
use crate::psp::chunks::{AlphaChunk, ImageChunk, LayerChunk, Resolution, SelectionChunk};
use crate::psp::listing::{self, ENTRY_NUMBERS};
use crate::psp::pencil::{self, Asked};
use crate::psp::planes::{self, PlaneAnswer};
use crate::psp::rectangle::{self, Rectangle};
use crate::psp::views::{self, PaletteView};
use crate::psp::{canvas, listing::Listing, saved};

/// Number, place and entry count.
pub type Listed = (u32, u64, u64);

/// An entry's fourteen numbers.
pub type Record = [u32; ENTRY_NUMBERS];

pub trait Library {
    fn list(&self, input: &[u8], table: &mut [u32]) -> Listed;
    fn list_records(&self, input: &[u8], table: &mut [u32], records: &mut [Record]) -> Listed;
    fn count(&self, input: &[u8], room: usize) -> Listed;
    fn entry_at(&self, input: &[u8], room: usize, k: usize) -> Asked;
    fn read_plane(&self, input: &[u8], stored: &Stored, destination: &mut [u8]) -> PlaneAnswer;
    fn unpack(&self, stream: &[u8], plane: u64, destination: &mut [u8]) -> PlaneAnswer;
    fn pack(&self, plane: &[u8], destination: &mut [u8]) -> (u32, u64);
    fn place(&self, placing: &Placing, canvas: &mut [u8], plane: &[u8]) -> u32;
    fn intersect(&self, one: Rectangle, other: Rectangle) -> Rectangle;
    fn palette(&self, input: &[u8], room: usize, ramp: &[u8]) -> PaletteView;
    fn image_facts(&self, input: &[u8], room: usize) -> (u32, ImageChunk);
    fn layer_facts(&self, input: &[u8], room: usize, k: u32) -> (u32, LayerChunk);
    /// Number, start and length.
    fn layer_name(&self, input: &[u8], room: usize, k: u32) -> (u32, u64, u64);
    fn selection_facts(&self, input: &[u8], room: usize) -> (u32, SelectionChunk);
    fn alpha_facts(&self, input: &[u8], room: usize, k: u32) -> (u32, AlphaChunk);
    /// Number, start and length.
    fn alpha_name(&self, input: &[u8], room: usize, k: u32) -> (u32, u64, u64);
    fn layer_at(&self, input: &[u8], place: u64) -> (u32, LayerChunk);
    /// Number, start and length.
    fn name_at(&self, input: &[u8], place: u64) -> (u32, u64, u64);
    fn selection_at(&self, input: &[u8], place: u64) -> (u32, SelectionChunk);
    fn alpha_at(&self, input: &[u8], place: u64) -> (u32, AlphaChunk);
    /// Number, start and length.
    fn alpha_name_at(&self, input: &[u8], place: u64) -> (u32, u64, u64);
    fn dots(&self, resolution: Resolution) -> Option<f64>;
    /// Number and length.
    fn write_table(&self, table: &[u32], destination: &mut [u8]) -> (u32, u64);
    /// Number and entry count.
    fn read_table(&self, file: &[u8], table: &mut [u32]) -> (u32, u64);
}

/// The independent implementation.
pub struct Reference;

fn listed(listing: &Listing) -> Listed {
    let count = listing.entries.len() as u64;
    (listing.number, listing.place, count)
}

/// Number 0 and the value, or the refusal's number and zeros.
fn numbered<T: Default>(result: Result<T, u32>) -> (u32, T) {
    match result {
        Ok(value) => (0, value),
        Err(number) => (number, T::default()),
    }
}

impl Library for Reference {
    fn list(&self, input: &[u8], table: &mut [u32]) -> Listed {
        let (number, place, count) = listing::list_into(input, table);
        (number, place, u64::from(count))
    }

    fn list_records(&self, input: &[u8], table: &mut [u32], records: &mut [Record]) -> Listed {
        let room = records.len().min(table.len() / ENTRY_NUMBERS);
        let listing = listing::list(input, room);
        let slots = table.chunks_exact_mut(ENTRY_NUMBERS).zip(records);
        for ((slot, record), entry) in slots.zip(&listing.entries) {
            *record = entry.numbers();
            slot.copy_from_slice(record);
        }
        listed(&listing)
    }

    fn count(&self, input: &[u8], room: usize) -> Listed {
        listed(&listing::list(input, room))
    }

    fn entry_at(&self, input: &[u8], room: usize, k: usize) -> Asked {
        pencil::entry_at(input, room, k)
    }

    fn read_plane(&self, input: &[u8], stored: &Stored, destination: &mut [u8]) -> PlaneAnswer {
        let Stored {
            start,
            length,
            plane,
            code,
        } = *stored;
        planes::read_plane(input, start, length, plane, code, destination)
    }

    fn unpack(&self, stream: &[u8], plane: u64, destination: &mut [u8]) -> PlaneAnswer {
        planes::read_packets(stream, plane, destination)
    }

    fn pack(&self, plane: &[u8], destination: &mut [u8]) -> (u32, u64) {
        planes::pack(plane, destination)
    }

    fn place(&self, placing: &Placing, canvas: &mut [u8], plane: &[u8]) -> u32 {
        let (width, height) = (placing.width, placing.height);
        let saved = placing.rectangle;
        canvas::place(width, height, canvas, saved, plane, placing.row)
    }

    fn intersect(&self, one: Rectangle, other: Rectangle) -> Rectangle {
        rectangle::intersection(one, other)
    }

    fn palette(&self, input: &[u8], room: usize, ramp: &[u8]) -> PaletteView {
        views::palette_view(input, room, ramp.len() as u64)
    }

    fn image_facts(&self, input: &[u8], room: usize) -> (u32, ImageChunk) {
        numbered(views::image_facts(input, room))
    }

    fn layer_facts(&self, input: &[u8], room: usize, k: u32) -> (u32, LayerChunk) {
        numbered(views::layer_facts(input, room, u64::from(k)))
    }

    fn layer_name(&self, input: &[u8], room: usize, k: u32) -> (u32, u64, u64) {
        let (number, (start, length)) = numbered(views::layer_name(input, room, u64::from(k)));
        (number, start, length)
    }

    fn selection_facts(&self, input: &[u8], room: usize) -> (u32, SelectionChunk) {
        numbered(views::selection_facts(input, room))
    }

    fn alpha_facts(&self, input: &[u8], room: usize, k: u32) -> (u32, AlphaChunk) {
        numbered(views::alpha_facts(input, room, u64::from(k)))
    }

    fn alpha_name(&self, input: &[u8], room: usize, k: u32) -> (u32, u64, u64) {
        let (number, (start, length)) = numbered(views::alpha_name(input, room, u64::from(k)));
        (number, start, length)
    }

    fn layer_at(&self, input: &[u8], place: u64) -> (u32, LayerChunk) {
        numbered(views::layer_at(input, place))
    }

    fn name_at(&self, input: &[u8], place: u64) -> (u32, u64, u64) {
        let (number, (start, length)) = numbered(views::name_at(input, place));
        (number, start, length)
    }

    fn selection_at(&self, input: &[u8], place: u64) -> (u32, SelectionChunk) {
        numbered(views::selection_at(input, place))
    }

    fn alpha_at(&self, input: &[u8], place: u64) -> (u32, AlphaChunk) {
        numbered(views::alpha_at(input, place))
    }

    fn alpha_name_at(&self, input: &[u8], place: u64) -> (u32, u64, u64) {
        let (number, (start, length)) = numbered(views::alpha_name_at(input, place));
        (number, start, length)
    }

    fn dots(&self, resolution: Resolution) -> Option<f64> {
        resolution.dots_per_centimetre()
    }

    fn write_table(&self, table: &[u32], destination: &mut [u8]) -> (u32, u64) {
        saved::write_table(table, destination)
    }

    fn read_table(&self, file: &[u8], table: &mut [u32]) -> (u32, u64) {
        saved::read_table(file, table)
    }
}
