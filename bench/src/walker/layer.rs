//! The bank and its layers.

use super::block::{word, Block};
use super::entry;
use super::holder::{code, Holder, Shape};
use super::image::Image;
use super::level::Level;
use super::rectangle;
use super::refusal::{refuse, Number, Walked};
use super::room::Room;
use super::BANK;

const LAYER: u32 = 4;
const CHUNK: usize = 375;

/// What the depth says of every layer.
struct Colours {
    count: u32,
    bits: u32,
    codes: u32,
}

impl Colours {
    fn new(depth: u32) -> Colours {
        match depth {
            24 => Colours {
                count: 3,
                bits: 8,
                codes: code(0, 1) | code(0, 2) | code(0, 3),
            },
            bits => Colours {
                count: 1,
                bits,
                codes: code(0, 0),
            },
        }
    }
}

/// The bank and all inside; gives what is behind it.
#[inline(never)]
pub fn bank<'a, R: Room>(
    image: &Image,
    main: &Level<'a>,
    block: &Block<'a>,
    room: &mut R,
) -> Walked<&'a [u8]> {
    if block.initial() != 0 {
        return block.refuse(Number::WrongLength);
    }
    room.put(entry::parent(BANK, 0, block.at, 14, 0), block.at)?;
    let (inside, behind) = main.enter(block, 0, 1);
    let colours = Colours::new(image.depth);
    inside.members(LAYER, image.layers, room, |rank, bank, block, room| {
        layer(&colours, rank, bank, block, room)
    })?;
    Ok(behind)
}

/// A layer and all inside; gives what is behind it.
#[inline(always)]
fn layer<'a, R: Room>(
    colours: &Colours,
    rank: u32,
    bank: &Level<'a>,
    block: &Block<'a>,
    room: &mut R,
) -> Walked<&'a [u8]> {
    let initial = block.initial();
    let is_right = (initial == CHUNK as u32 || initial == 0) && block.total() >= CHUNK;
    if !is_right || bank.is_passed_by(block) {
        return block.refuse(Number::WrongLength);
    }
    let chunk = block.chunk::<CHUNK>()?;
    let wrong = |offset| refuse(Number::WrongField, block.start() + offset);
    if chunk[256] > 1 {
        return wrong(256);
    }
    let pixels = rectangle::saved(chunk, 257, block.start())?;
    let mask = rectangle::saved(chunk, 294, block.start())?;
    if word(chunk, 329) > 5 {
        return wrong(329);
    }
    let bitmaps = word(chunk, 371);
    if bitmaps.wrapping_sub(1) > 2 {
        return wrong(371);
    }
    let channels = word(chunk, 373);
    if channels + 1 != colours.count + bitmaps {
        return wrong(373);
    }
    room.put(entry::parent(LAYER, 1, block.at, 389, rank), block.at)?;
    let pixel_mask = Shape::new(pixels, 8);
    let colour = match colours.bits {
        8 => pixel_mask,
        bits => Shape::new(pixels, bits),
    };
    let holder = Holder {
        rank,
        left: channels,
        due: colours.codes | code(1, 0) | code(2, 0),
        wanted: colours.codes,
        shapes: [colour, pixel_mask, Shape::new(mask, 8), Shape::default()],
    };
    let (inside, behind) = bank.enter(block, CHUNK, 2);
    holder.walk(inside, room)?;
    Ok(behind)
}
