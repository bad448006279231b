//! The selection, the alpha bank and its alpha channels.

use super::block::{word, Block};
use super::entry;
use super::holder::{code, Holder, Shape};
use super::level::Level;
use super::rectangle;
use super::refusal::{refuse, Number, Walked};
use super::room::Room;
use super::{ALPHA_BANK, SELECTION};

const ALPHA: u32 = 8;

/// Bytes of a selection's chunk, of an alpha channel's name and of its chunk.
const AREA: usize = 36;
const NAME: usize = 256;
const CHUNK: usize = NAME + AREA;

/// The selection and all inside; gives what is behind it.
#[inline(never)]
pub fn selection<'a, R: Room>(
    main: &Level<'a>,
    block: &Block<'a>,
    room: &mut R,
) -> Walked<&'a [u8]> {
    if block.initial() != AREA as u32 || block.total() < AREA {
        return block.refuse(Number::WrongLength);
    }
    let shape = area(block.chunk::<AREA>()?, block.start())?;
    room.put(entry::parent(SELECTION, 0, block.at, 50, 0), block.at)?;
    let (inside, behind) = main.enter(block, AREA, 1);
    Holder::of_one(shape, 0, code(3, 0)).walk(inside, room)?;
    Ok(behind)
}

/// The alpha bank and all inside; gives what is behind it.
#[inline(never)]
pub fn alpha_bank<'a, R: Room>(
    main: &Level<'a>,
    block: &Block<'a>,
    room: &mut R,
) -> Walked<&'a [u8]> {
    if block.initial() != 2 || block.total() < 2 {
        return block.refuse(Number::WrongLength);
    }
    let count = u32::from(u16::from_le_bytes(*block.chunk()?));
    room.put(entry::parent(ALPHA_BANK, 0, block.at, 16, 0), block.at)?;
    let (inside, behind) = main.enter(block, 2, 1);
    inside.members(ALPHA, count, room, alpha)?;
    Ok(behind)
}

/// An alpha channel and all inside; gives what is behind it.
fn alpha<'a, R: Room>(
    rank: u32,
    bank: &Level<'a>,
    block: &Block<'a>,
    room: &mut R,
) -> Walked<&'a [u8]> {
    let is_right = block.initial() == CHUNK as u32 && block.total() >= CHUNK;
    if !is_right || bank.is_passed_by(block) {
        return block.refuse(Number::WrongLength);
    }
    let chunk = block.chunk::<CHUNK>()?;
    let shape = area(&chunk[NAME..], block.start() + NAME)?;
    room.put(entry::parent(ALPHA, 1, block.at, 306, rank), block.at)?;
    let (inside, behind) = bank.enter(block, CHUNK, 2);
    Holder::of_one(shape, rank, code(4, 0)).walk(inside, room)?;
    Ok(behind)
}

/// The fields of a selection, or of an alpha channel behind its name.
fn area(area: &[u8], area_start: usize) -> Walked<Shape> {
    let saved = rectangle::saved(area, 0, area_start)?;
    for offset in [32, 34] {
        if word(area, offset) != 1 {
            return refuse(Number::WrongField, area_start + offset);
        }
    }
    Ok(Shape::new(saved, 8))
}
