//! Request (x): entry k of a listing, as one would find it by hand. Beside what the
//! rules remember it keeps a place, the ends of at most two open parents, and a count.

use super::listing::Entry;
use super::number;
use super::rules::{refuse, Refusal, Rules, Step};

#[derive(Clone, Copy, Debug, PartialEq, Eq)]
pub enum Asked {
    Found(Entry),
    /// There is no such entry in this room: the listing's final answer.
    Final {
        number: u32,
        place: u64,
        count: u64,
    },
}

/// Entry k, counted from 0, of the listing with room for that many entries.
pub fn entry_at(input: &[u8], room: usize, k: usize) -> Asked {
    let mut pencil = Pencil {
        rules: Rules::new(input),
        place: 0,
        outer: None,
        inner: None,
        count: 0,
    };
    let (number, place) = match pencil.follow(room as u64, k as u64) {
        Ok(Some(entry)) => return Asked::Found(entry),
        Ok(None) => (number::ACCEPTED, pencil.place),
        Err(Refusal { number, place }) => (number, place),
    };
    Asked::Final {
        number,
        place,
        count: pencil.count,
    }
}

struct Pencil<'a> {
    rules: Rules<'a>,
    place: u64,
    /// The end of the main block that is open, and of the block that is open in it:
    /// nothing nests deeper.
    outer: Option<u64>,
    inner: Option<u64>,
    /// The entries passed.
    count: u64,
}

impl Pencil<'_> {
    /// Up to the entry, or to the end of an accepted input.
    fn follow(&mut self, room: u64, k: u64) -> Result<Option<Entry>, Refusal> {
        self.place = self.rules.file_header()?;
        loop {
            self.leave()?;
            let parent_end = self.inner.or(self.outer);
            if parent_end.is_none() && self.rules.is_end(self.place) {
                self.rules.end_of_input(self.place)?;
                return Ok(None);
            }
            let Step { entry, end } = self.rules.block(self.place, parent_end)?;
            // The last check of an entry, and so of the one asked for too.
            if self.count == room {
                return refuse(number::TABLE_FULL, self.place);
            }
            if self.count == k {
                return Ok(Some(entry));
            }
            self.count += 1;
            self.place += u64::from(entry.bytes_owned);
            match self.outer {
                None => self.outer = end,
                Some(_) => self.inner = self.inner.or(end),
            }
        }
    }

    /// Leaves the parents that end here, the inner one first.
    fn leave(&mut self) -> Result<(), Refusal> {
        for end in [&mut self.inner, &mut self.outer] {
            if *end == Some(self.place) {
                self.rules.close_parent(self.place)?;
                *end = None;
            }
        }
        Ok(())
    }
}
