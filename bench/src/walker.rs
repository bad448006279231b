//! A tuned listing in safe Rust, which the library's is measured beside. It is written from document
//! 01 and requests (i), (vi), (vii) and (ix) of document 02, and shares no code with the library or
//! with the independent implementation.
//!
//! What makes it fast: nothing is allocated. Each level of nesting is a loop of its own, and what it
//! remembers are locals. A level is one slice that ends where its parent or the input does, so that
//! one comparison shows a block to be inside both. Channels and skipped blocks are taken in runs.

mod block;
mod entry;
mod holder;
mod image;
mod layer;
mod level;
mod masks;
mod rectangle;
mod refusal;
mod room;

use crate::sides::Answer;
use block::UNKNOWN;
use image::Image;
use level::Level;
use refusal::{refuse, Number, Refusal, Walked};
use room::Room;

const INPUT_LIMIT: usize = 1 << 30;

const SIGNATURE: &[u8; 32] = b"Paint Shop Pro Image File\n\x1a\0\0\0\0\0";
const VERSION: &[u8; 4] = &[3, 0, 0, 0];

const PALETTE: u32 = 2;
const BANK: u32 = 3;
const SELECTION: u32 = 6;
const ALPHA_BANK: u32 = 7;
const THUMBNAIL: u32 = 9;

/// Bits of ids that main blocks may have whenever they come: creator, extended data, tube.
const SKIPPED: u32 = 1 << 1 | 1 << 10 | 1 << 11;

/// Bits of ids that they may have once.
const ONCE: u32 = 1 << PALETTE | 1 << BANK | 1 << SELECTION | 1 << ALPHA_BANK;

/// Lists an input into a table of numbers, fourteen an entry; its rest is untouched.
#[inline(never)]
pub fn list(input: &[u8], table: &mut [u32]) -> Answer {
    let (slots, _) = table.as_chunks_mut();
    let room = slots.len();
    let mut slots = slots.iter_mut();
    answer(input, walk(input, &mut slots), room - slots.len())
}

/// Gives the answer of a listing in a room of so many entries, and stores nothing.
#[inline(never)]
pub fn count(input: &[u8], room: usize) -> Answer {
    let mut left = room;
    answer(input, walk(input, &mut left), room - left)
}

fn answer(input: &[u8], walked: Walked<()>, count: usize) -> Answer {
    match walked {
        Ok(()) => (0, input.len(), count),
        Err(Refusal { number, place }) => (number as u32, place as usize, count),
    }
}

fn walk<R: Room>(input: &[u8], room: &mut R) -> Walked<()> {
    if input.len() > INPUT_LIMIT {
        return refuse(Number::OverLimit, 0);
    }
    let Some((header, rest)) = input.split_first_chunk::<36>() else {
        return refuse(Number::EndsTooSoon, 0);
    };
    let (signature, version) = header.split_at(SIGNATURE.len());
    if signature != SIGNATURE {
        return refuse(Number::WrongSignature, 0);
    }
    if version != VERSION {
        return refuse(Number::WrongVersion, SIGNATURE.len());
    }
    let mut level = Level::main(input.len(), rest);
    let image = image::first(&mut level, room)?;
    main_blocks(level, &image, room)
}

/// The blocks behind the image.
fn main_blocks<R: Room>(mut level: Level, image: &Image, room: &mut R) -> Walked<()> {
    let mut skipped = SKIPPED | 1 << THUMBNAIL;
    let mut due = ONCE;
    while let Some(block) = level.block() {
        if !block.is_marked() {
            return block.refuse(Number::WrongMark);
        }
        let id = block.id();
        if id >= UNKNOWN || skipped >> id & 1 != 0 {
            level.rest = level.skip_all(skipped, room)?;
            continue;
        }
        if due >> id & 1 == 0 {
            return block.refuse(Number::OutOfPlace);
        }
        level.rest = match id {
            PALETTE if image.depth == 24 => level.skip_one(&block, room)?,
            PALETTE => image::palette(image, &block, room)?,
            BANK => layer::bank(image, &level, &block, room)?,
            SELECTION => masks::selection(&level, &block, room)?,
            _ => masks::alpha_bank(&level, &block, room)?,
        };
        due &= !(1 << id);
        if id == BANK {
            skipped &= !(1 << THUMBNAIL);
        }
    }
    let wanted = 1 << BANK | u32::from(image.is_paletted) << PALETTE;
    if !level.rest.is_empty() || due & wanted != 0 {
        return refuse(Number::EndsTooSoon, level.at());
    }
    Ok(())
}
