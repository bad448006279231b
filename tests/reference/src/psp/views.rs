//! What is read from an accepted input: the palette view, the image facts, the
//! facts and the name of layer k and of alpha channel k, the facts of the
//! selection. Each lists the input first, with a room for that many entries,
//! and passes the listing's own number on. Facts and names at a header's place
//! list nothing.

use super::chunks::MARK;
use super::chunks::{AlphaChunk, BlockHeader, FileHeader, ImageChunk, LayerChunk, SelectionChunk};
use super::listing::{list, Entry, ALPHA_CHANNEL, LAYER, PALETTE, SELECTION};
use super::rules::Treatment;
use super::{number, part, RAMP_LENGTH};

/// Which lent slice a palette view shows a part of.
#[derive(Clone, Copy, Debug, PartialEq, Eq)]
pub enum Lender {
    Input,
    Ramp,
}

#[derive(Clone, Copy, Debug, PartialEq, Eq)]
pub struct PaletteView {
    pub number: u32,
    pub lender: Lender,
    pub start: u64,
    pub length: u64,
}

/// An accepted input: its image facts and its entries.
fn accepted(input: &[u8], room: usize) -> Result<(ImageChunk, Vec<Entry>), u32> {
    let listing = list(input, room);
    if !listing.accepted() {
        return Err(listing.number);
    }
    // The image block is the first, so its chunk stands at 50.
    let start = FileHeader::SIZE + BlockHeader::SIZE;
    match part(input, start, ImageChunk::SIZE) {
        Some(chunk) => Ok((ImageChunk::decode(chunk), listing.entries)),
        None => Err(number::ENDS_TOO_SOON),
    }
}

pub fn palette_view(input: &[u8], room: usize, ramp_length: u64) -> PaletteView {
    let refusal = |number| PaletteView {
        number,
        lender: Lender::Input,
        start: 0,
        length: 0,
    };
    let (image, entries) = match accepted(input, room) {
        Ok(found) => found,
        Err(number) => return refusal(number),
    };
    if image.depth == 24 {
        return refusal(number::NO_PALETTE_AT_24);
    }
    let listed = |entry: &&Entry| entry.id == u32::from(PALETTE) && entry.skipped == 0;
    if let Some(palette) = entries.iter().find(listed) {
        return PaletteView {
            number: number::ACCEPTED,
            lender: Lender::Input,
            start: u64::from(palette.content_start),
            length: u64::from(palette.stored_length),
        };
    }
    // An accepted image without a listed palette is grey.
    if ramp_length != RAMP_LENGTH {
        return refusal(number::RAMP_WRONG);
    }
    PaletteView {
        number: number::ACCEPTED,
        lender: Lender::Ramp,
        start: 0,
        length: RAMP_LENGTH,
    }
}

pub fn image_facts(input: &[u8], room: usize) -> Result<ImageChunk, u32> {
    accepted(input, room).map(|(image, _)| image)
}

/// A kind of block whose chunk is shown, and the number for there being none.
struct Shown {
    id: u16,
    treatment: Treatment,
    size: u64,
    missing: u32,
}

const SHOWN_LAYER: Shown = Shown {
    id: LAYER,
    treatment: Treatment::Layer,
    size: LayerChunk::SIZE,
    missing: number::NO_SUCH_LAYER,
};

const SHOWN_SELECTION: Shown = Shown {
    id: SELECTION,
    treatment: Treatment::Selection,
    size: SelectionChunk::SIZE,
    missing: number::NO_SELECTION,
};

const SHOWN_ALPHA: Shown = Shown {
    id: ALPHA_CHANNEL,
    treatment: Treatment::Alpha,
    size: AlphaChunk::SIZE,
    missing: number::NO_SUCH_ALPHA,
};

/// The chunk of block k of a kind, and its start.
fn chunk<'a>(input: &'a [u8], room: usize, kind: &Shown, k: u64) -> Result<(&'a [u8], u64), u32> {
    let (_, entries) = accepted(input, room)?;
    let is_k = |entry: &&Entry| {
        entry.id == u32::from(kind.id) && entry.skipped == 0 && u64::from(entry.layer_number) == k
    };
    let block = entries.iter().find(is_k).ok_or(kind.missing)?;
    let start = u64::from(block.header_place) + BlockHeader::SIZE;
    let chunk = part(input, start, kind.size).ok_or(number::ENDS_TOO_SOON)?;
    Ok((chunk, start))
}

pub fn layer_facts(input: &[u8], room: usize, k: u64) -> Result<LayerChunk, u32> {
    let (chunk, _) = chunk(input, room, &SHOWN_LAYER, k)?;
    Ok(LayerChunk::decode(chunk))
}

/// Start in the input and length of the name of layer k. The name is the
/// chunk's first field.
pub fn layer_name(input: &[u8], room: usize, k: u64) -> Result<(u64, u64), u32> {
    let (chunk, start) = chunk(input, room, &SHOWN_LAYER, k)?;
    Ok((start, LayerChunk::decode(chunk).name_length() as u64))
}

/// There is at most one selection, and its number is 0.
pub fn selection_facts(input: &[u8], room: usize) -> Result<SelectionChunk, u32> {
    let (chunk, _) = chunk(input, room, &SHOWN_SELECTION, 0)?;
    Ok(SelectionChunk::decode(chunk))
}

pub fn alpha_facts(input: &[u8], room: usize, k: u64) -> Result<AlphaChunk, u32> {
    let (chunk, _) = chunk(input, room, &SHOWN_ALPHA, k)?;
    Ok(AlphaChunk::decode(chunk))
}

/// Start in the input and length of the name of alpha channel k, which is the
/// first field of its chunk too.
pub fn alpha_name(input: &[u8], room: usize, k: u64) -> Result<(u64, u64), u32> {
    let (chunk, start) = chunk(input, room, &SHOWN_ALPHA, k)?;
    Ok((start, AlphaChunk::decode(chunk).name_length() as u64))
}

/// The chunk of a block of a kind whose header stands at a place, and its start;
/// none where the header is another or wrong, or the chunk is not whole.
fn stands<'a>(input: &'a [u8], place: u64, kind: &Shown) -> Option<(&'a [u8], u64)> {
    let header = BlockHeader::decode(part(input, place, BlockHeader::SIZE)?);
    let start = place + BlockHeader::SIZE;
    let chunk = part(input, start, kind.size)?;
    let BlockHeader { initial, total, .. } = header;
    let good = header.mark == MARK && header.id == kind.id;
    let good = good && kind.treatment.has_lengths(initial, total);
    good.then_some((chunk, start))
}

fn chunk_at<'a>(input: &'a [u8], place: u64, kind: &Shown) -> Result<(&'a [u8], u64), u32> {
    stands(input, place, kind).ok_or(kind.missing)
}

pub fn layer_at(input: &[u8], place: u64) -> Result<LayerChunk, u32> {
    chunk_at(input, place, &SHOWN_LAYER).map(|(chunk, _)| LayerChunk::decode(chunk))
}

pub fn name_at(input: &[u8], place: u64) -> Result<(u64, u64), u32> {
    let (chunk, start) = chunk_at(input, place, &SHOWN_LAYER)?;
    Ok((start, LayerChunk::decode(chunk).name_length() as u64))
}

pub fn selection_at(input: &[u8], place: u64) -> Result<SelectionChunk, u32> {
    chunk_at(input, place, &SHOWN_SELECTION).map(|(chunk, _)| SelectionChunk::decode(chunk))
}

pub fn alpha_at(input: &[u8], place: u64) -> Result<AlphaChunk, u32> {
    chunk_at(input, place, &SHOWN_ALPHA).map(|(chunk, _)| AlphaChunk::decode(chunk))
}

pub fn alpha_name_at(input: &[u8], place: u64) -> Result<(u64, u64), u32> {
    let (chunk, start) = chunk_at(input, place, &SHOWN_ALPHA)?;
    Ok((start, AlphaChunk::decode(chunk).name_length() as u64))
}
