//! Entries of the table.

use crate::sides::ENTRY_NUMBERS;

pub type Entry = [u32; ENTRY_NUMBERS];

/// A block that fills nothing but its layer number: an image or a parent.
#[inline(always)]
pub fn parent(id: u32, level: u32, at: usize, owned: u32, rank: u32) -> Entry {
    [id, 0, level, at as u32, owned, rank, 0, 0, 0, 0, 0, 0, 0, 0]
}

/// A skipped block or a palette, whose content lies behind so much of it.
#[inline(always)]
pub fn filled(id: u32, skipped: u32, level: u32, at: usize, head: u32, stored: u32) -> Entry {
    let at = at as u32;
    let (owned, start) = (head + stored, at + head);
    [
        id, skipped, level, at, owned, 0, 0, 0, start, stored, 0, 0, 0, 0,
    ]
}
