//! What holds channels: a layer, a selection, an alpha channel.

use super::block::{dword, word, Block, HEADER, UNKNOWN};
use super::level::Level;
use super::rectangle::Sides;
use super::refusal::{refuse, Number, Walked};
use super::room::Room;

const CHANNEL: u32 = 5;

const CHUNK: usize = 12;

/// Bytes of a channel but for its content.
const HEAD: usize = HEADER + CHUNK;

/// The codes of a channel as a bit.
pub const fn code(bitmap: u32, channel: u32) -> u32 {
    1 << (4 * bitmap + channel)
}

/// What planes of one bitmap look like.
#[derive(Clone, Copy, Default)]
pub struct Shape {
    sides: Sides,
    /// The row with its padding, and the row without where that is permitted. Either of them times
    /// the height stays below 2 to the 30.
    padded: u32,
    bare: u32,
}

impl Shape {
    #[inline(always)]
    pub fn new(sides: Sides, bits: u32) -> Shape {
        let padded = (sides.width * bits + 31) / 32 * 4;
        Shape {
            sides,
            padded,
            bare: if bits == 8 { sides.width } else { padded },
        }
    }

    /// The row of a plane of that length, if there is one.
    #[inline(always)]
    fn row(self, plane: u32) -> Option<u32> {
        if plane == self.padded * self.sides.height {
            return Some(self.padded);
        }
        (plane == self.bare * self.sides.height).then_some(self.bare)
    }
}

#[derive(Clone, Copy)]
pub struct Holder {
    pub rank: u32,
    /// Channels that are still to come.
    pub left: u32,
    /// Codes that are expected and have not come.
    pub due: u32,
    /// Codes that must have come at the end.
    pub wanted: u32,
    /// By the last two bits of the bitmap.
    pub shapes: [Shape; 4],
}

impl Holder {
    pub fn of_one(shape: Shape, rank: u32, due: u32) -> Holder {
        Holder {
            rank,
            left: 1,
            due,
            wanted: due,
            shapes: [shape; 4],
        }
    }

    /// The blocks inside.
    #[inline(always)]
    pub fn walk<R: Room>(mut self, mut level: Level, room: &mut R) -> Walked<()> {
        loop {
            let mut here = room.take();
            self.plain_channels(&mut level, &mut here);
            *room = here;
            if level.is_at_end() && self.is_complete() {
                return Ok(());
            }
            level.rest = self.other(&level, room)?;
        }
    }

    #[inline(always)]
    fn is_complete(&self) -> bool {
        self.left == 0 && self.due & self.wanted == 0
    }

    /// Channels one behind the other, up to one that is not right or not whole, or has no room. Each
    /// test has an `if` of its own: joined ones become arithmetic, which takes longer here.
    #[inline(always)]
    fn plain_channels<R: Room>(&mut self, level: &mut Level, room: &mut R) {
        // One comparison, after which header and chunk are known to be there.
        while level.rest.len() >= HEAD {
            let Some(block) = level.block() else {
                break;
            };
            let Some((chunk, content)) = block.tail.split_first_chunk::<CHUNK>() else {
                break;
            };
            if !block.is_marked() {
                break;
            }
            if block.id() != CHANNEL {
                break;
            }
            if self.left == 0 {
                break;
            }
            if block.initial() != CHUNK as u32 {
                break;
            }
            let stored = dword(chunk, 0);
            if block.total() != CHUNK + stored as usize {
                break;
            }
            // Channel 0 to 3, bitmap 0 to 7: the codes that have a bit.
            let codes = dword(chunk, 8);
            if codes & !0x3_0007 != 0 {
                break;
            }
            let (bitmap, channel) = (codes & 7, codes >> 16);
            let code = code(bitmap, channel);
            if self.due & code == 0 {
                break;
            }
            let plane = dword(chunk, 4);
            let shape = self.shapes[bitmap as usize & 3];
            let Some(row) = shape.row(plane) else {
                break;
            };
            let Some(behind) = content.get(stored as usize..) else {
                break;
            };
            let (at, head) = (block.at as u32, HEAD as u32);
            let is_put = room.has_put([
                CHANNEL,
                0,
                level.number,
                at,
                head + stored,
                self.rank,
                bitmap,
                channel,
                at + head,
                stored,
                shape.sides.width,
                shape.sides.height,
                plane,
                row,
            ]);
            if !is_put {
                break;
            }
            level.rest = behind;
            self.left -= 1;
            self.due ^= code;
        }
    }

    /// What is no plain channel: an end, skipped blocks, or a refusal. Gives what is behind.
    #[cold]
    #[inline(never)]
    fn other<'a, R: Room>(&self, level: &Level<'a>, room: &mut R) -> Walked<&'a [u8]> {
        let Some(block) = level.block() else {
            level.judge_end()?;
            return refuse(Number::Missing, level.at());
        };
        if !block.is_marked() {
            return block.refuse(Number::WrongMark);
        }
        match block.id() {
            CHANNEL => self.refuse_channel(level, &block),
            UNKNOWN.. => level.skip_all(0, room),
            _ => block.refuse(Number::OutOfPlace),
        }
    }

    /// A channel that is not plain.
    fn refuse_channel<T>(&self, level: &Level, block: &Block) -> Walked<T> {
        let total = block.total();
        if self.left == 0 {
            return block.refuse(Number::NotExpected);
        }
        let is_right = block.initial() == CHUNK as u32 && total >= CHUNK;
        if !is_right || level.is_passed_by(block) {
            return block.refuse(Number::WrongLength);
        }
        let chunk = block.chunk::<CHUNK>()?;
        let wrong = |offset| refuse(Number::WrongField, block.start() + offset);
        if total != CHUNK + dword(chunk, 0) as usize {
            return block.refuse(Number::WrongLength);
        }
        let (plane, bitmap, channel) = (dword(chunk, 4), word(chunk, 8), word(chunk, 10));
        if bitmap > 5 {
            return wrong(8);
        }
        if channel > 3 {
            return wrong(10);
        }
        if self.due & code(bitmap, channel) == 0 {
            return block.refuse(Number::NotExpected);
        }
        if self.shapes[bitmap as usize & 3].row(plane).is_none() {
            return wrong(4);
        }
        if total > block.tail.len() {
            return refuse(Number::EndsTooSoon, block.start() + CHUNK);
        }
        block.refuse(Number::TableFull)
    }
}
