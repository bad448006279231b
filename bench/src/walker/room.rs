//! Where entries go: into a table, or nowhere.

use super::entry::Entry;
use super::refusal::{refuse, Number, Walked};
use std::mem;
use std::slice::IterMut;

pub trait Room: Sized {
    /// Takes an entry, or says that there is no room for it.
    fn has_put(&mut self, entry: Entry) -> bool;

    /// Moves out, for a loop that keeps it in registers; what it leaves has no room.
    fn take(&mut self) -> Self;

    /// Takes the entry of the block at a place.
    #[inline(always)]
    fn put(&mut self, entry: Entry, at: usize) -> Walked<()> {
        match self.has_put(entry) {
            true => Ok(()),
            false => refuse(Number::TableFull, at),
        }
    }
}

/// The slots of a table that are left.
impl Room for IterMut<'_, Entry> {
    #[inline(always)]
    fn has_put(&mut self, entry: Entry) -> bool {
        match self.next() {
            Some(slot) => {
                *slot = entry;
                true
            }
            None => false,
        }
    }

    #[inline(always)]
    fn take(&mut self) -> Self {
        mem::take(self)
    }
}

/// So many entries that are left.
impl Room for usize {
    #[inline(always)]
    fn has_put(&mut self, _: Entry) -> bool {
        match self.checked_sub(1) {
            Some(left) => {
                *self = left;
                true
            }
            None => false,
        }
    }

    #[inline(always)]
    fn take(&mut self) -> Self {
        mem::take(self)
    }
}
