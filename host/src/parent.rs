//! A block that holds blocks, while the walk is inside it: its end, what it announces, and what was
//! found in it.

use crate::fields::{Fields, FILE_HEADER, HEADER};
use crate::holder::Which;
use crate::judged::Judged;
use crate::named;
use crate::psp::ffi::{Entry, ImageChunk, MISSING};
use crate::sheet::{self, Sheet};
use crate::words::{counted, or};

const IMAGE: u32 = 0;
const BANK: u32 = 3;
const CHANNEL: u32 = 5;
const ALPHA_BANK: u32 = 7;

pub struct Parent {
    /// What it is, where it holds channels.
    which: Option<Which>,
    id: u32,
    /// The place behind its last byte.
    end: usize,
    announced: u16,
    /// Where that number stands.
    announced_at: usize,
    found: u32,
    /// Bitmap and channel of each channel in it.
    codes: Vec<[u32; 2]>,
    /// The channels of a layer's bitmap 0, all of which must be there.
    colours: &'static [u32],
}

impl Parent {
    /// The parent that an entry is, if it is one; the judged block is the same.
    pub fn of(entry: &Entry, judged: &Judged) -> Option<Parent> {
        let which = Which::of(entry);
        let (image, chunk) = (judged.image()?, judged.chunk());
        let announced_at = match entry.id {
            _ if entry.skipped != 0 => return None,
            BANK => count_at(IMAGE, FILE_HEADER + HEADER),
            ALPHA_BANK => chunk,
            id => which.map(|_| count_at(id, chunk))?,
        };
        Some(Parent {
            which,
            id: entry.id,
            end: chunk.saturating_add(judged.block.total as usize),
            announced: Fields::at(judged.input, announced_at)?.word()?,
            announced_at,
            found: 0,
            codes: Vec::new(),
            colours: colours(which, &image),
        })
    }

    pub fn words(&self) -> String {
        match self.which {
            Some(Which::Selection) => "the selection".to_string(),
            Some(which) => which.to_string(),
            None if self.id == BANK => "the bank".to_string(),
            None => "the alpha bank".to_string(),
        }
    }

    /// What it holds, and the id of that.
    pub fn member(&self) -> (&'static str, u32) {
        match self.id {
            BANK => ("layer", 4),
            ALPHA_BANK => ("alpha channel", 8),
            _ => ("channel", CHANNEL),
        }
    }

    /// Adds an entry that lies in it.
    pub fn add(&mut self, entry: &Entry) {
        if entry.skipped == 0 {
            self.found += 1;
            if entry.id == CHANNEL {
                self.codes.push([entry.bitmap, entry.channel]);
            }
        }
    }

    /// Whether it has as many as it announces.
    pub fn is_full(&self) -> bool {
        self.found >= self.announced.into()
    }

    /// How many it announces, with the bytes that say so, and how many were found.
    pub fn count_words(&self, input: &[u8]) -> String {
        let announced = counted(self.announced.into(), self.member().0);
        let words = format!("{} announced, and {} found", announced, self.found);
        sheet::bytes(input, self.announced_at, 2, &words)
    }

    pub fn end(&self) -> usize {
        self.end
    }

    /// How many bytes are left in it at a place, and that in words.
    pub fn left(&self, place: usize) -> (usize, String) {
        let left = self.end.saturating_sub(place);
        let bytes = counted(left, "byte");
        let words = format!(
            "{} left in {}, which ends at {}",
            bytes,
            self.words(),
            self.end
        );
        (left, words)
    }

    /// Writes what must be there at its end: all that it announces, and a layer's colour channels.
    /// None where the listing stopped at that.
    pub fn close(&self, input: &[u8], sheet: &mut Sheet) -> Option<()> {
        let at = (MISSING, self.end);
        sheet.line("no byte is left in it".to_string());
        sheet.test_one(self.is_full(), at, self.count_words(input))?;
        if self.colours.is_empty() {
            return Some(());
        }
        let found = self.found_colours();
        let words = format!(
            "channels of bitmap 0: {} wanted, and {} found",
            listed(self.colours),
            listed(&found)
        );
        sheet.test_one(found == self.colours, at, words)
    }

    /// Which channels may be in it, and which were found.
    pub fn channel_words(&self) -> Option<String> {
        let expected = match self.which? {
            Which::Layer(_) => format!(
                "bitmap 0 with channel {}, and bitmap 1 or 2 with channel 0, none twice",
                or(self.colours)
            ),
            which => format!("bitmap {} with channel 0", which.bitmap()),
        };
        let pair = |code: &[u32; 2]| format!("bitmap {} channel {}", code[0], code[1]);
        let before: Vec<String> = self.codes.iter().map(pair).collect();
        Some(format!(
            "in {} may stand {}; before it: {}",
            self.words(),
            expected,
            or_none(before.join(", "))
        ))
    }

    fn found_colours(&self) -> Vec<u32> {
        let is_found = |colour: &&u32| self.codes.contains(&[0, **colour]);
        self.colours.iter().filter(is_found).copied().collect()
    }
}

/// The count of what a block announces is the last field of its chunk.
fn count_at(id: u32, chunk: usize) -> usize {
    chunk.saturating_add(named::offsets(id).last().unwrap_or_default())
}

fn colours(which: Option<Which>, image: &ImageChunk) -> &'static [u32] {
    match (which, image.depth) {
        (Some(Which::Layer(_)), 24) => &[1, 2, 3],
        (Some(Which::Layer(_)), _) => &[0],
        _ => &[],
    }
}

fn listed(numbers: &[u32]) -> String {
    let numbers: Vec<String> = numbers.iter().map(u32::to_string).collect();
    or_none(numbers.join(", "))
}

fn or_none(words: String) -> String {
    match words.is_empty() {
        true => "none".to_string(),
        false => words,
    }
}
