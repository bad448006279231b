//! The walk of a listing, place by place, as a pencil would write it down. Which entries there are,
//! and the answer, is the library's word; what is written at a place only shows why.

use crate::answer;
use crate::beginning;
use crate::fields::{FILE_HEADER, HEADER, MARK};
use crate::holder::{self, Which};
use crate::judged::{Judged, Passed};
use crate::lines;
use crate::parent::Parent;
use crate::placing::Main;
use crate::psp::ffi::*;
use crate::psp::refusal::Refusal;
use crate::sheet::{self, Sheet};
use crate::tested::Tested;
use std::io::{self, Write};

pub struct Pencil<'a> {
    out: &'a mut dyn Write,
    input: &'a [u8],
    passed: Passed,
    main: Main,
    /// The parents that the walk is in, each inside the one before it.
    parents: Vec<Parent>,
}

impl<'a> Pencil<'a> {
    pub fn new(out: &'a mut dyn Write, input: &'a [u8]) -> Pencil<'a> {
        Pencil {
            out,
            input,
            passed: Passed::none(),
            main: Main::default(),
            parents: Vec::new(),
        }
    }

    /// Writes the walk over a table's entries, and behind them up to the answer where that is given;
    /// tells how many entries are done.
    pub fn walk(
        &mut self,
        table: &[u32],
        answer: Option<Listed>,
        done: impl Fn(u64),
    ) -> io::Result<()> {
        let is_stopped = self.file_header(answer)?;
        for (index, entry) in lines::entries(table).enumerate() {
            self.entry(index, &entry)?;
            done(index as u64);
        }
        match answer {
            Some(answer) if !is_stopped => self.end(answer),
            _ => Ok(()),
        }
    }

    /// A place, what stands there and what the walk does; below it the tests.
    fn write(&mut self, place: usize, what: &str, course: &str, sheet: &Sheet) -> io::Result<()> {
        writeln!(self.out, "{}: {}: {}", place, what, course)?;
        for line in sheet.lines() {
            writeln!(self.out, "  {}", line)?;
        }
        Ok(())
    }

    /// Gives whether the walk stops here.
    fn file_header(&mut self, answer: Option<Listed>) -> io::Result<bool> {
        let mut sheet = Sheet::until(answer);
        let goes_on = beginning::tested(self.input, &mut sheet);
        let course = match (goes_on, answer) {
            (None, Some(answer)) => stops(&answer),
            _ => format!("the walk goes on to {}", FILE_HEADER),
        };
        self.write(0, "the file header", &course, &sheet)?;
        Ok(goes_on.is_none())
    }

    fn entry(&mut self, index: usize, entry: &Entry) -> io::Result<()> {
        let place = entry.place as usize;
        self.leave(place, None)?;
        if let Some(judged) = self.passed.next(self.input) {
            let parent = Parent::of(entry, &judged);
            let mut sheet = Sheet::passed();
            self.tested(&judged, Some(entry)).write(&mut sheet);
            let block = answer::by_kind(Some(judged.block));
            let own = self.own_words(entry, &judged);
            let what = format!("entry {}, {}{}", index, block, own.unwrap_or_default());
            let course = course(entry, parent.as_ref());
            self.write(place, &what, &course, &sheet)?;
            self.pass(entry, parent);
        }
        Ok(())
    }

    /// Which one it is, of layers, alpha channels and channels.
    fn own_words(&self, entry: &Entry, judged: &Judged) -> Option<String> {
        let words = match (Which::of(entry), self.parents.last()) {
            _ if entry.skipped != 0 => return None,
            (Some(_), Some(_)) => judged.holder_words()?,
            (None, Some(parent)) => holder::channel_words(entry, &parent.words()),
            _ => return None,
        };
        Some(format!(", {}", words))
    }

    fn tested<'b>(&'b self, judged: &'b Judged<'b>, entry: Option<&'b Entry>) -> Tested<'b> {
        Tested::new(judged, self.parents.last(), &self.main, entry)
    }

    /// Remembers an entry, and goes into it where it is a parent.
    fn pass(&mut self, entry: &Entry, parent: Option<Parent>) {
        match self.parents.last_mut() {
            Some(around) => around.add(entry),
            None => self.main.add(entry),
        }
        self.passed.add(entry);
        self.parents.extend(parent);
    }

    /// Goes out of every parent that ends at a place; gives whether the walk stops at one of them.
    fn leave(&mut self, place: usize, answer: Option<Listed>) -> io::Result<bool> {
        while self
            .parents
            .last()
            .map_or(false, |last| last.end() == place)
        {
            let mut sheet = Sheet::until(answer);
            let (what, goes_on) = match self.parents.pop() {
                Some(parent) => (parent.words(), parent.close(self.input, &mut sheet)),
                None => break,
            };
            let course = match (goes_on, answer) {
                (None, Some(answer)) => stops(&answer),
                _ => format!("the walk goes out, {}", self.into_words()),
            };
            self.write(place, &format!("the end of {}", what), &course, &sheet)?;
            if goes_on.is_none() {
                return Ok(true);
            }
        }
        Ok(false)
    }

    /// Behind the last entry: what ends there, and then the end of the input, or the block that was
    /// not passed.
    fn end(&mut self, answer: Listed) -> io::Result<()> {
        let place = self.passed.place().unwrap_or(self.input.len());
        if self.leave(place, Some(answer))? {
            return Ok(());
        }
        match self.parents.is_empty() && place == self.input.len() {
            true => self.input_end(answer),
            false => self.stop(place, answer),
        }
    }

    fn input_end(&mut self, answer: Listed) -> io::Result<()> {
        let place = self.input.len();
        let mut sheet = Sheet::until(Some(answer));
        self.main
            .end(place, self.passed.image(self.input), &mut sheet);
        let course = match answer.number {
            ACCEPTED => "the walk ends, and the file is accepted".to_string(),
            _ => stops(&answer),
        };
        self.write(place, "the end of the input", &course, &sheet)
    }

    /// The block that was not passed.
    fn stop(&mut self, place: usize, answer: Listed) -> io::Result<()> {
        let mut sheet = Sheet::until(Some(answer));
        let header = self.header(place, &mut sheet);
        let judged = header.and_then(|()| self.passed.next(self.input));
        if let Some(judged) = &judged {
            self.tested(judged, None).write(&mut sheet);
        }
        let block = judged.map(|judged| judged.block);
        let what = match block.filter(|block| block.mark == MARK) {
            Some(block) => answer::by_kind(Some(block)),
            None => "what follows".to_string(),
        };
        let what = format!("{} {}", what, self.in_words());
        self.write(place, &what, &stops(&answer), &sheet)
    }

    /// Whether there is a header at all; one that is there is shown by its bytes.
    fn header(&self, place: usize, sheet: &mut Sheet) -> Option<()> {
        let left = self.parents.last().map(|parent| parent.left(place));
        if let Some((_, words)) = left.filter(|left| left.0 < HEADER) {
            let words = format!("{}, and a block header takes {}", words, HEADER);
            sheet.test(WRONG_LENGTH, place, words)?;
        }
        if self.input.len().saturating_sub(place) < HEADER {
            let words = sheet::unit(self.input, place, HEADER, "a block header");
            sheet.test(ENDS_TOO_SOON, place, words)?;
        }
        Some(())
    }

    /// Where the walk is.
    fn in_words(&self) -> String {
        match self.parents.last() {
            Some(parent) => format!("in {}", parent.words()),
            None => "at the main level".to_string(),
        }
    }

    /// Where it comes to.
    fn into_words(&self) -> String {
        match self.parents.last() {
            Some(parent) => format!("into {}", parent.words()),
            None => "to the main level".to_string(),
        }
    }
}

/// What the walk does at an entry.
fn course(entry: &Entry, parent: Option<&Parent>) -> String {
    let behind = u64::from(entry.place) + u64::from(entry.owned);
    match parent {
        _ if entry.skipped != 0 => format!("the walk skips it and goes on to {}", behind),
        Some(parent) => format!("the walk goes in, up to {}", parent.end()),
        None => format!("the walk goes on to {}", behind),
    }
}

fn stops(answer: &Listed) -> String {
    let meaning = Refusal::of(answer.number).map_or("accepted", Refusal::meaning);
    format!(
        "the walk stops, {} at {}: {}",
        answer.number, answer.place, meaning
    )
}

#[cfg(test)]
mod tests {
    use super::*;
    use crate::fields::SIGNATURE;

    /// Document 01's file of 521 bytes.
    fn grey() -> Vec<u8> {
        let mut file = [&SIGNATURE[..], &[3, 0, 0, 0]].concat();
        let block = |file: &mut Vec<u8>, id: u8, lengths: [u32; 2], fields: &[(usize, u8)]| {
            file.extend(MARK);
            file.extend([id, 0]);
            file.extend(lengths.map(u32::to_le_bytes).concat());
            let chunk = file.len();
            file.resize(chunk + lengths[0] as usize, 0);
            fields
                .iter()
                .for_each(|&(at, byte)| file[chunk + at] = byte);
        };
        let image = [(0, 1), (4, 1), (19, 8), (21, 1), (24, 1), (27, 1), (36, 1)];
        block(&mut file, 0, [38, 38], &image);
        block(&mut file, 3, [0, 419], &[]);
        let layer = [
            (0, b'a'),
            (265, 1),
            (269, 1),
            (281, 1),
            (285, 1),
            (371, 1),
            (373, 1),
        ];
        block(&mut file, 4, [375, 405], &layer);
        block(&mut file, 5, [12, 16], &[(0, 4), (4, 4)]);
        file.extend([9, 0, 0, 0]);
        file
    }

    /// Its table.
    const TABLE: [[u32; ENTRY_NUMBERS]; 4] = [
        [0, 0, 0, 36, 52, 0, 0, 0, 0, 0, 0, 0, 0, 0],
        [3, 0, 0, 88, 14, 0, 0, 0, 0, 0, 0, 0, 0, 0],
        [4, 0, 1, 102, 389, 0, 0, 0, 0, 0, 0, 0, 0, 0],
        [5, 0, 2, 491, 30, 0, 0, 0, 517, 4, 1, 1, 4, 4],
    ];

    fn walked(input: &[u8], table: &[[u32; ENTRY_NUMBERS]], answer: Option<Listed>) -> Vec<String> {
        let mut out = Vec::new();
        let mut pencil = Pencil::new(&mut out, input);
        let written = pencil.walk(&table.concat(), answer, |_| ());
        written.expect("a vector takes all");
        let text = String::from_utf8(out).expect("text");
        text.lines().map(str::to_string).collect()
    }

    fn answer(number: u32, place: usize, count: usize) -> Option<Listed> {
        Some(Listed {
            number,
            place,
            count,
        })
    }

    fn places(lines: &[String]) -> Vec<&str> {
        let places = lines.iter().filter(|line| !line.starts_with(' '));
        places.map(String::as_str).collect()
    }

    #[test]
    fn an_accepted_file_is_walked_to_its_end() {
        let lines = walked(&grey(), &TABLE, answer(0, 521, 4));
        let expected = [
            "0: the file header: the walk goes on to 36",
            "36: entry 0, an image block (id 0): the walk goes on to 88",
            "88: entry 1, a bank block (id 3): the walk goes in, up to 521",
            "102: entry 2, a layer block (id 4), layer 0 (\"a\"): the walk goes in, up to 521",
            "491: entry 3, a channel block (id 5), bitmap 0 (image) channel 0 (composite) \
             of layer 0: the walk goes on to 521",
            "521: the end of layer 0: the walk goes out, into the bank",
            "521: the end of the bank: the walk goes out, to the main level",
            "521: the end of the input: the walk ends, and the file is accepted",
        ];
        assert_eq!(places(&lines), expected);
    }

    #[test]
    fn a_walk_without_an_answer_ends_with_its_last_entry() {
        let lines = walked(&grey(), &TABLE[..2], None);
        assert_eq!(places(&lines).len(), 3);
        let last = "  the block ends at 521, and the main level has no end";
        assert_eq!(lines.last().map(String::as_str), Some(last));
    }

    /// Checks that a walk stops at an answer, below whose place the last line is this one.
    fn stops_at(input: &[u8], listed: Option<Listed>, last: &str) {
        let count = listed.map_or(0, |listed| listed.count);
        let lines = walked(input, &TABLE[..count], listed);
        let expected = listed.map(|listed| stops(&listed)).unwrap_or_default();
        let place = places(&lines).pop().expect("a place");
        assert!(place.ends_with(&expected), "{} in {}", expected, place);
        assert_eq!(lines.last().map(|line| line.trim_start()), Some(last));
    }

    #[test]
    fn a_walk_stops_where_the_input_does() {
        let head = "bytes are there: the file header takes 36, and at most 1,073,741,824 are read";
        let told = [
            (0, 0, 0, &format!("0: 0 {}", head)[..]),
            (35, 0, 0, &format!("0: 35 {}", head)),
            (36, 36, 0, "a bank is wanted, and none stands before it"),
            (40, 36, 0, "36: a block header of 14 bytes, 4 of them there"),
            (60, 50, 0, "50: a chunk of 38 bytes, 10 of them there"),
            (88, 88, 1, "a bank is wanted, and none stands before it"),
            (
                102,
                102,
                2,
                "102: a block header of 14 bytes, 0 of them there",
            ),
            (490, 116, 2, "116: a chunk of 375 bytes, 374 of them there"),
            (520, 517, 3, "517: content of 4 bytes, 3 of them there"),
        ];
        for (length, place, count, last) in told {
            stops_at(&grey()[..length], answer(2, place, count), last);
        }
    }

    /// A place and the byte that is put there; number, place and count of the answer; the last line.
    struct Damage(usize, u8, [usize; 3], &'static str);

    #[rustfmt::skip] // a line a test
    const DAMAGES: [Damage; 15] = [
        Damage(32, 5, [4, 32, 0], "32: 05 00 00 00, version 5.0: only 3.0 is read"),
        Damage(88, 7, [5, 88, 1], "88: 07 42 4B 00, the mark: it must be 7E 42 4B 00"),
        Damage(42, 7, [6, 36, 0], "42: 07 00 00 00, initial length 7: it must be 38"),
        Damage(46, 7, [6, 36, 0], "46: 07 00 00 00, total length 7: it must be 38"),
        Damage(112, 150, [6, 102, 2], "the block ends at 522, and the bank at 521"),
        Damage(112, 144, [6, 491, 3], "the block ends at 521, and layer 0 at 516"),
        Damage(98, 168, [6, 521, 4], "5 bytes left in the bank, which ends at 526, and a block header takes 14"),
        Damage(505, 5, [6, 491, 3],
            "501: 10 00 00 00, total length 16: by the compressed channel length it must be 12 + 5 = 17"),
        Damage(40, 1, [7, 36, 0],
            "40: 01 00, a creator block (id 1): the first block must be an image (id 0)"),
        Damage(106, 5, [7, 102, 2],
            "106: 05 00, a channel block (id 5): of known blocks only layers (id 4) may stand in the bank"),
        Damage(50, 0, [8, 50, 0], "50: 00 00 00 00, image width 0: it must be 1 to 30,000"),
        Damage(513, 6, [8, 513, 3], "513: 06 00, bitmap type 6: it must be 0 to 5, and in a layer 0 to 2"),
        Damage(515, 1, [9, 491, 3],
            "bitmap 0 channel 1: in layer 0 may stand bitmap 0 with channel 0, \
             and bitmap 1 or 2 with channel 0, none twice; before it: none"),
        Damage(86, 2, [10, 521, 4], "86: 02 00, 2 layers announced, and 1 found"),
        Damage(67, 2, [11, 50, 0],
            "67: 02 00, compression type 2: 0, raw, and 1, run lengths, are read, and 2, LZ77, is not"),
    ];

    #[test]
    fn a_walk_stops_at_the_test_that_failed() {
        for Damage(place, byte, [number, at, count], last) in DAMAGES {
            let mut file = grey();
            file[place] = byte;
            stops_at(&file, answer(number as u32, at, count), last);
        }
    }

    #[test]
    fn a_wrong_signature_is_told_byte_by_byte() {
        let mut file = grey();
        file[0] = b'Q';
        file[31] = 1;
        let lines = walked(&file, &[], answer(3, 0, 0));
        let last = lines.last().expect("a line");
        assert!(last.starts_with("  0: 51 61 "), "{}", last);
        assert!(last.ends_with(" 00 00, and differs at 0, 31"), "{}", last);
    }

    #[test]
    fn a_layer_ends_with_its_colour_channels() {
        let mut file = grey();
        file[513] = 1;
        let mut table = TABLE;
        table[3][6] = 1;
        let lines = walked(&file, &table, answer(10, 521, 4));
        let last = "  channels of bitmap 0: 0 wanted, and none found";
        assert_eq!(lines.last().map(String::as_str), Some(last));
        let place =
            "521: the end of layer 0: the walk stops, 10 at 521: a parent closes incomplete";
        assert_eq!(places(&lines).pop(), Some(place));
    }
}
