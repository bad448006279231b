//! The tests that a listing makes at a block, in document 01's order, each with the bytes that it
//! looks at.

use crate::answer;
use crate::fields::{Fields, HEADER, MARK};
use crate::judged::Judged;
use crate::lengths::Lengths;
use crate::named;
use crate::parent::Parent;
use crate::placing::{self, Main};
use crate::psp::ffi::*;
use crate::shape;
use crate::sheet::{self, Sheet};
use crate::words::hexadecimal;

/// Offsets in a block header.
const ID: usize = 4;
const INITIAL: usize = 6;
const TOTAL: usize = 10;

/// Offsets in chunks: the image's compression, and a channel's fields.
const COMPRESSION: usize = 17;
const PLANE: usize = 4;
const TYPES: [usize; 2] = [8, 10];

/// A block whose header is there.
pub struct Tested<'a> {
    judged: &'a Judged<'a>,
    /// What it lies in, if not at the main level.
    parent: Option<&'a Parent>,
    main: &'a Main,
    /// What is listed of it, where it was passed.
    entry: Option<&'a Entry>,
    is_skipped: bool,
    lengths: Lengths,
}

impl<'a> Tested<'a> {
    pub fn new(
        judged: &'a Judged<'a>,
        parent: Option<&'a Parent>,
        main: &'a Main,
        entry: Option<&'a Entry>,
    ) -> Tested<'a> {
        let depth = judged.image().map_or(0, |image| image.depth);
        let is_skipped = match entry {
            Some(entry) => entry.skipped != 0,
            None => placing::is_skipped(judged.id, depth),
        };
        Tested {
            judged,
            parent,
            main,
            entry,
            is_skipped,
            lengths: Lengths::of(judged.id, is_skipped),
        }
    }

    /// Writes a line a test; none where the listing stopped at one.
    pub fn write(&self, sheet: &mut Sheet) -> Option<()> {
        sheet.test(WRONG_MARK, self.judged.header, self.mark())?;
        self.place(sheet)?;
        self.count(sheet)?;
        self.lengths(sheet)?;
        self.presence(sheet)?;
        match self.judged.id {
            _ if self.is_skipped => self.content(sheet, self.judged.block.total.into(), "data"),
            0 => self.image(sheet),
            2 => self.palette(sheet),
            5 => self.channel(sheet),
            7 => self.alpha_bank(sheet),
            _ => self.fields(sheet),
        }
    }

    /// Bytes at an offset from the header, and what they are.
    fn bytes(&self, offset: usize, length: usize, words: &str) -> String {
        let place = self.judged.header.saturating_add(offset);
        sheet::bytes(self.judged.input, place, length, words)
    }

    fn mark(&self) -> String {
        let words = format!("the mark: it must be {}", hexadecimal(&MARK, 1));
        self.bytes(0, MARK.len(), &words)
    }

    fn place(&self, sheet: &mut Sheet) -> Option<()> {
        let rule = placing::rule(self.judged.id, self.parent, self.main);
        let goes_on = sheet.goes_on(OUT_OF_PLACE, self.judged.header);
        let outcome = match goes_on {
            Some(()) if self.is_skipped && self.judged.id == 2 => "; at bit depth 24 it is skipped",
            Some(()) if self.is_skipped => "; it is skipped",
            Some(()) => "; it is entered",
            None => "",
        };
        let block = answer::by_kind(Some(self.judged.block));
        let words = format!("{}: {}{}", block, rule, outcome);
        sheet.line(self.bytes(ID, 2, &words));
        goes_on
    }

    /// One more than what it lies in announces; what is skipped is not counted.
    fn count(&self, sheet: &mut Sheet) -> Option<()> {
        match self.parent.filter(|_| !self.is_skipped) {
            Some(parent) => {
                let at = (NOT_EXPECTED, self.judged.header);
                let words = parent.count_words(self.judged.input);
                sheet.test_one(!parent.is_full(), at, words)
            }
            None => Some(()),
        }
    }

    fn lengths(&self, sheet: &mut Sheet) -> Option<()> {
        let at = (WRONG_LENGTH, self.judged.header);
        let (block, rules) = (self.judged.block, &self.lengths);
        let words = format!(
            "initial length {}: {}",
            block.initial,
            rules.initial_words()
        );
        let line = self.bytes(INITIAL, 4, &words);
        sheet.test_one(rules.is_initial(block.initial), at, line)?;
        let words = format!("total length {}: {}", block.total, rules.total_words());
        let line = self.bytes(TOTAL, 4, &words);
        sheet.test_one(rules.is_total(block.total), at, line)?;
        let (is_inside, words) = self.end();
        sheet.test_one(is_inside, at, words)
    }

    /// Whether it ends inside what it lies in; the main level ends with the input, whenever that is.
    fn end(&self) -> (bool, String) {
        let total = self.judged.block.total as usize;
        let end = self.judged.chunk().saturating_add(total);
        let ends = format!("the block ends at {}", end);
        match self.parent {
            Some(parent) => {
                let words = format!("{}, and {} at {}", ends, parent.words(), parent.end());
                (end <= parent.end(), words)
            }
            None => (true, format!("{}, and the main level has no end", ends)),
        }
    }

    /// The presence of its chunk; one that is there is shown field by field.
    fn presence(&self, sheet: &mut Sheet) -> Option<()> {
        let (input, chunk, size) = (self.judged.input, self.judged.chunk(), self.lengths.size());
        if input.len().saturating_sub(chunk) >= size {
            return Some(());
        }
        let line = sheet::unit(input, chunk, size, "a chunk");
        sheet.test(ENDS_TOO_SOON, chunk, line)
    }

    /// The presence of what stands behind the chunk.
    fn content(&self, sheet: &mut Sheet, length: u64, what: &str) -> Option<()> {
        let start = self.judged.chunk().saturating_add(self.lengths.size());
        let line = sheet::unit(self.judged.input, start, length as usize, what);
        sheet.test(ENDS_TOO_SOON, start, line)
    }

    fn fields(&self, sheet: &mut Sheet) -> Option<()> {
        named::offsets(self.judged.id).try_for_each(|offset| self.field(sheet, offset))
    }

    fn field(&self, sheet: &mut Sheet, offset: usize) -> Option<()> {
        let (bytes, words) = named::told(self.judged, offset)?;
        let line = self.bytes(HEADER + offset, bytes.len(), &words);
        sheet.test(WRONG_FIELD, self.judged.chunk() + offset, line)
    }

    fn image(&self, sheet: &mut Sheet) -> Option<()> {
        self.fields(sheet)?;
        let words = format!(
            "compression type {}: 0, raw, and 1, run lengths, are read, and 2, LZ77, is not",
            self.judged.image()?.compression
        );
        let line = self.bytes(HEADER + COMPRESSION, 2, &words);
        sheet.test(NOT_READABLE, self.judged.chunk(), line)
    }

    fn palette(&self, sheet: &mut Sheet) -> Option<()> {
        self.fields(sheet)?;
        let count = Fields::at(self.judged.input, self.judged.chunk())?.double_word()?;
        let entries = 4 * u64::from(count);
        self.total_by(sheet, entries, "palette entry count")?;
        self.content(sheet, entries, "entries")
    }

    /// The total by the length of what stands behind the chunk, which a field tells.
    fn total_by(&self, sheet: &mut Sheet, stored: u64, field: &str) -> Option<()> {
        let size = self.lengths.size() as u64;
        let words = format!(
            "total length {}: by the {} it must be {} + {} = {}",
            self.judged.block.total,
            field,
            size,
            stored,
            size + stored
        );
        let line = self.bytes(TOTAL, 4, &words);
        sheet.test(WRONG_LENGTH, self.judged.header, line)
    }

    fn channel(&self, sheet: &mut Sheet) -> Option<()> {
        let channel = self.judged.channel()?;
        let words = format!("compressed channel length {}", channel.stored);
        sheet.line(self.bytes(HEADER, 4, &words));
        let stored = channel.stored.into();
        self.total_by(sheet, stored, "compressed channel length")?;
        let mut types = TYPES.iter();
        types.try_for_each(|&offset| self.field(sheet, offset))?;
        let expected = self.parent.and_then(Parent::channel_words)?;
        let codes = format!("bitmap {} channel {}", channel.bitmap, channel.channel);
        let line = format!("{}: {}", codes, expected);
        sheet.test(NOT_EXPECTED, self.judged.header, line)?;
        self.field(sheet, PLANE)?;
        self.row().into_iter().for_each(|row| sheet.line(row));
        self.content(sheet, stored, "content")
    }

    /// Which form the rows have, as the library lists them.
    fn row(&self) -> Option<String> {
        let entry = self.entry?;
        let bits = shape::bits(&self.judged.image()?, entry.bitmap);
        let form = match entry.row {
            row if bits < 8 || row != entry.width => "padded",
            row if row % 4 == 0 => "padded or not",
            _ => "not padded",
        };
        Some(format!("a row has {} bytes, {}", entry.row, form))
    }

    fn alpha_bank(&self, sheet: &mut Sheet) -> Option<()> {
        let count = Fields::at(self.judged.input, self.judged.chunk())?.word()?;
        let words = format!("alpha channel count {}: it is not judged", count);
        sheet.line(self.bytes(HEADER, 2, &words));
        Some(())
    }
}
