//! A level of nesting, and blocks in it that are not entered.

use super::block::{Block, HEADER, UNKNOWN};
use super::entry::{self, Entry};
use super::refusal::{refuse, Number, Walked};
use super::room::Room;

/// What is left of a level.
#[derive(Clone, Copy)]
pub struct Level<'a> {
    /// Up to the parent's end, or the input's where that comes first.
    pub rest: &'a [u8],
    /// The place where the rest ends.
    stop: usize,
    /// The parent's end, which may be far behind. The main level has none.
    end: u64,
    pub number: u32,
}

impl<'a> Level<'a> {
    pub fn main(stop: usize, rest: &'a [u8]) -> Level<'a> {
        Level {
            rest,
            stop,
            end: u64::MAX,
            number: 0,
        }
    }

    /// The place where the rest starts.
    #[inline(always)]
    pub fn at(&self) -> usize {
        self.stop - self.rest.len()
    }

    /// The block at the start of the rest.
    #[inline(always)]
    pub fn block(&self) -> Option<Block<'a>> {
        Block::first(self.rest, self.at())
    }

    /// Whether nothing is left before the parent's end.
    #[inline(always)]
    pub fn is_at_end(&self) -> bool {
        self.rest.is_empty() && self.stop as u64 == self.end
    }

    /// Too little is left for a header: the parent ends here, or there is one of two refusals.
    pub fn judge_end(&self) -> Walked<()> {
        let at = self.at();
        match self.end - at as u64 {
            0 => Ok(()),
            1..14 => refuse(Number::WrongLength, at),
            _ => refuse(Number::EndsTooSoon, at),
        }
    }

    /// Whether a block's total passes the parent's end.
    #[inline(always)]
    pub fn is_passed_by(&self, block: &Block) -> bool {
        block.total() > block.tail.len() && self.ends_before(block.start() + block.total())
    }

    #[cold]
    fn ends_before(&self, place: usize) -> bool {
        self.end < place as u64
    }

    /// The level inside a block, behind a chunk that is there, and what is behind the block.
    #[inline(always)]
    pub fn enter(&self, block: &Block<'a>, chunk: usize, number: u32) -> (Level<'a>, &'a [u8]) {
        let total = block.total();
        let (inside, behind) = block.tail.split_at(total.min(block.tail.len()));
        let level = Level {
            rest: &inside[chunk..],
            stop: block.start() + inside.len(),
            end: (block.start() + total) as u64,
            number,
        };
        (level, behind)
    }

    /// A block that is skipped; gives what is behind it.
    pub fn skip_one<R: Room>(&self, block: &Block<'a>, room: &mut R) -> Walked<&'a [u8]> {
        if self.is_passed_by(block) {
            return block.refuse(Number::WrongLength);
        }
        let Some(behind) = block.tail.get(block.total()..) else {
            return refuse(Number::EndsTooSoon, block.start());
        };
        room.put(self.skipped(block), block.at)?;
        Ok(behind)
    }

    /// Blocks one behind the other that are skipped: those of unknown ids, and of known ids whose bit
    /// is set. Gives what is behind them.
    #[inline(never)]
    pub fn skip_all<R: Room>(&self, known: u32, room: &mut R) -> Walked<&'a [u8]> {
        let mut level = *self;
        let mut here = room.take();
        let refused = level.plain_skips(known, &mut here);
        *room = here;
        match refused {
            Some(block) => level.skip_one(&block, room),
            None => Ok(level.rest),
        }
    }

    /// Steps over the same, up to one that is not whole or has no room, which it gives.
    #[inline(always)]
    fn plain_skips<R: Room>(&mut self, known: u32, room: &mut R) -> Option<Block<'a>> {
        while let Some(block) = self.block() {
            if !block.is_marked() {
                break;
            }
            let id = block.id();
            if id < UNKNOWN && known >> id & 1 == 0 {
                break;
            }
            let Some(behind) = block.tail.get(block.total()..) else {
                return Some(block);
            };
            if !room.has_put(self.skipped(&block)) {
                return Some(block);
            }
            self.rest = behind;
        }
        None
    }

    #[inline(always)]
    fn skipped(&self, block: &Block) -> Entry {
        let (head, total) = (HEADER as u32, block.total() as u32);
        entry::filled(block.id(), 1, self.number, block.at, head, total)
    }

    /// The blocks of a bank: so many members of one id, which are walked by the function, and whatever
    /// is skipped. The function gives what is behind a member.
    #[inline(always)]
    pub fn members<R: Room>(
        mut self,
        id: u32,
        count: u32,
        room: &mut R,
        mut member: impl FnMut(u32, &Level<'a>, &Block<'a>, &mut R) -> Walked<&'a [u8]>,
    ) -> Walked<()> {
        let mut rank = 0;
        while let Some(block) = self.block() {
            if !block.is_marked() {
                return block.refuse(Number::WrongMark);
            }
            if block.id() >= UNKNOWN {
                self.rest = self.skip_all(0, room)?;
                continue;
            }
            if block.id() != id {
                return block.refuse(Number::OutOfPlace);
            }
            if rank == count {
                return block.refuse(Number::NotExpected);
            }
            self.rest = member(rank, &self, &block, room)?;
            rank += 1;
        }
        self.judge_end()?;
        if rank != count {
            return refuse(Number::Missing, self.at());
        }
        Ok(())
    }
}
