//! The listing: one walk over the blocks of an input into a table, with the ends of
//! the open parents kept by hand, so that the stack does not grow and every byte is
//! passed once.

use super::number;
use super::rules::{refuse, Refusal, Rules, Step};

pub const IMAGE: u16 = 0;
pub const PALETTE: u16 = 2;
pub const BANK: u16 = 3;
pub const LAYER: u16 = 4;
pub const CHANNEL: u16 = 5;
pub const SELECTION: u16 = 6;
pub const ALPHA_BANK: u16 = 7;
pub const ALPHA_CHANNEL: u16 = 8;
pub const THUMBNAIL: u16 = 9;
/// From here on ids have no meaning in format 3.0.
pub const FIRST_UNKNOWN: u16 = 12;

/// Numbers of an entry.
pub const ENTRY_NUMBERS: usize = 14;

#[derive(Clone, Copy, Debug, Default, PartialEq, Eq)]
pub struct Entry {
    pub id: u32,
    pub skipped: u32,
    pub level: u32,
    pub header_place: u32,
    pub bytes_owned: u32,
    pub layer_number: u32,
    pub bitmap: u32,
    pub channel: u32,
    pub content_start: u32,
    pub stored_length: u32,
    pub width: u32,
    pub height: u32,
    pub plane_length: u32,
    pub row: u32,
}

impl Entry {
    pub fn numbers(&self) -> [u32; ENTRY_NUMBERS] {
        [
            self.id,
            self.skipped,
            self.level,
            self.header_place,
            self.bytes_owned,
            self.layer_number,
            self.bitmap,
            self.channel,
            self.content_start,
            self.stored_length,
            self.width,
            self.height,
            self.plane_length,
            self.row,
        ]
    }
}

pub struct Listing {
    pub number: u32,
    pub place: u64,
    pub entries: Vec<Entry>,
}

impl Listing {
    pub fn accepted(&self) -> bool {
        self.number == number::ACCEPTED
    }
}

/// Lists the blocks of an input, with room for that many entries.
pub fn list(input: &[u8], room: usize) -> Listing {
    let mut walk = Walk {
        rules: Rules::new(input),
        room,
        entries: Vec::new(),
        at: 0,
        ends: Vec::new(),
    };
    let (number, place) = match walk.run() {
        Ok(()) => (number::ACCEPTED, walk.at),
        Err(Refusal { number, place }) => (number, place),
    };
    Listing {
        number,
        place,
        entries: walk.entries,
    }
}

/// Lists into a table of numbers, fourteen an entry, room rounded down.
/// Returns number, place and count; numbers past the entries stay as they are.
pub fn list_into(input: &[u8], table: &mut [u32]) -> (u32, u64, u32) {
    let listing = list(input, table.len() / ENTRY_NUMBERS);
    for (slot, entry) in table.chunks_exact_mut(ENTRY_NUMBERS).zip(&listing.entries) {
        slot.copy_from_slice(&entry.numbers());
    }
    (listing.number, listing.place, listing.entries.len() as u32)
}

struct Walk<'a> {
    rules: Rules<'a>,
    room: usize,
    entries: Vec<Entry>,
    /// Start of the next unit, never past the input's end.
    at: u64,
    /// The ends of the open parents, each inside the one before it.
    ends: Vec<u64>,
}

impl Walk<'_> {
    fn run(&mut self) -> Result<(), Refusal> {
        self.at = self.rules.file_header()?;
        loop {
            match self.ends.last().copied() {
                Some(end) if end == self.at => {
                    self.rules.close_parent(self.at)?;
                    self.ends.pop();
                }
                None if self.rules.is_end(self.at) => return self.rules.end_of_input(self.at),
                parent_end => self.block(parent_end)?,
            }
        }
    }

    /// Writes the entry of the next block, and steps over the bytes it owns. Blocks
    /// inside it come after them.
    fn block(&mut self, parent_end: Option<u64>) -> Result<(), Refusal> {
        let Step { entry, end } = self.rules.block(self.at, parent_end)?;
        if self.entries.len() >= self.room {
            return refuse(number::TABLE_FULL, self.at);
        }
        self.entries.push(entry);
        self.at += u64::from(entry.bytes_owned);
        self.ends.extend(end);
        Ok(())
    }
}
