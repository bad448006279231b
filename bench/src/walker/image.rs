//! The image and its palette.

use super::block::{dword, field, word, Block};
use super::entry;
use super::level::Level;
use super::rectangle::SIDE_LIMIT;
use super::refusal::{refuse, Number, Walked};
use super::room::Room;
use super::PALETTE;

const CHUNK: usize = 38;

const LAYER_LIMIT: u32 = 64;

/// What is remembered of the image.
pub struct Image {
    pub depth: u32,
    pub is_paletted: bool,
    pub layers: u32,
}

/// The first block, which must be an image.
pub fn first<R: Room>(level: &mut Level, room: &mut R) -> Walked<Image> {
    let Some(block) = level.block() else {
        return refuse(Number::EndsTooSoon, level.at());
    };
    if !block.is_marked() {
        return block.refuse(Number::WrongMark);
    }
    if block.id() != 0 {
        return block.refuse(Number::OutOfPlace);
    }
    if block.initial() != CHUNK as u32 || block.total() != CHUNK {
        return block.refuse(Number::WrongLength);
    }
    let image = Image::judged(block.chunk()?, block.start())?;
    room.put(entry::parent(0, 0, block.at, 52, 0), block.at)?;
    level.rest = &block.tail[CHUNK..];
    Ok(image)
}

impl Image {
    fn judged(chunk: &[u8; CHUNK], chunk_start: usize) -> Walked<Image> {
        let is_side = |at| (1..=SIDE_LIMIT).contains(&i64::from(dword(chunk, at)));
        let (value, metric) = (f64::from_le_bytes(field(chunk, 8)), chunk[16]);
        let is_measured = value.is_finite() && value > 0.0;
        let (compression, depth) = (word(chunk, 17), word(chunk, 19));
        let is_depth = matches!(depth, 1 | 4 | 8 | 24);
        let grey = chunk[27];
        let is_paletted = depth < 24 && grey == 0;
        let layers = word(chunk, 36);
        let fields = [
            (0, is_side(0)),
            (4, is_side(4)),
            (16, metric == 0 || (metric <= 2 && is_measured)),
            (17, compression <= 2),
            (19, is_depth),
            (21, word(chunk, 21) == 1),
            (23, is_depth && dword(chunk, 23) == 1 << depth),
            (27, grey == 0 || (grey == 1 && depth == 8)),
            (
                36,
                (1..=if is_paletted { 1 } else { LAYER_LIMIT }).contains(&layers),
            ),
        ];
        if let Some((offset, _)) = fields.iter().find(|(_, is_right)| !is_right) {
            return refuse(Number::WrongField, chunk_start + offset);
        }
        if compression == 2 {
            return refuse(Number::NotReadable, chunk_start);
        }
        Ok(Image {
            depth,
            is_paletted,
            layers,
        })
    }
}

/// A palette below depth 24; gives what is behind it.
pub fn palette<'a, R: Room>(image: &Image, block: &Block<'a>, room: &mut R) -> Walked<&'a [u8]> {
    if block.initial() != 4 || block.total() < 4 {
        return block.refuse(Number::WrongLength);
    }
    let count = u32::from_le_bytes(*block.chunk()?);
    if count == 0 || count > 1 << image.depth {
        return refuse(Number::WrongField, block.start());
    }
    let length = 4 * count;
    if block.total() != 4 + length as usize {
        return block.refuse(Number::WrongLength);
    }
    let Some(behind) = block.tail.get(block.total()..) else {
        return refuse(Number::EndsTooSoon, block.start() + 4);
    };
    room.put(entry::filled(PALETTE, 0, 0, block.at, 18, length), block.at)?;
    Ok(behind)
}
