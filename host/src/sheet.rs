//! What the pencil writes below a place: a line a test, up to the one at which the listing stopped.
//! The answer is the library's; a test here only asks whether that answer is its own.

use crate::psp::ffi::Listed;
use crate::words::{counted, hexadecimal};

pub struct Sheet {
    lines: Vec<String>,
    /// The answer, where the listing passed no block here.
    answer: Option<Listed>,
}

impl Sheet {
    /// Below the place of an entry, or of an end that was passed.
    pub fn passed() -> Sheet {
        Sheet::until(None)
    }

    /// Below the place at which the listing stopped; or maybe not yet.
    pub fn until(answer: Option<Listed>) -> Sheet {
        Sheet {
            lines: Vec::new(),
            answer,
        }
    }

    pub fn lines(&self) -> &[String] {
        &self.lines
    }

    pub fn line(&mut self, line: String) {
        self.lines.push(line);
    }

    /// None where a test with this number and place was the last one.
    pub fn goes_on(&self, number: u32, place: usize) -> Option<()> {
        match self.answer {
            Some(answer) if (answer.number, answer.place) == (number, place) => None,
            _ => Some(()),
        }
    }

    /// A line, and the answer that the listing gives if its test fails.
    pub fn test(&mut self, number: u32, place: usize, line: String) -> Option<()> {
        self.line(line);
        self.goes_on(number, place)
    }

    /// The same where several tests of a block have one answer, and this one holds or not.
    pub fn test_one(&mut self, holds: bool, at: (u32, usize), line: String) -> Option<()> {
        self.line(line);
        match holds {
            true => Some(()),
            false => self.goes_on(at.0, at.1),
        }
    }
}

/// So many bytes at a place, as far as they are there, and what they are.
pub fn bytes(input: &[u8], place: usize, length: usize, words: &str) -> String {
    let rest = input.get(place..).unwrap_or(&[]);
    let there = rest.get(..length).unwrap_or(rest);
    format!("{}: {}, {}", place, hexadecimal(there, 1), words)
}

/// A unit that begins at a place: its length, and how much of it is there.
pub fn unit(input: &[u8], place: usize, length: usize, what: &str) -> String {
    let there = match input.len().saturating_sub(place) {
        rest if rest >= length => "all".to_string(),
        rest => rest.to_string(),
    };
    let bytes = counted(length, "byte");
    format!("{}: {} of {}, {} of them there", place, what, bytes, there)
}

#[cfg(test)]
mod tests {
    use super::*;

    fn stopped(number: u32, place: usize) -> Sheet {
        let count = 0;
        Sheet::until(Some(Listed {
            number,
            place,
            count,
        }))
    }

    /// Four tests, of which the first two may have one answer.
    fn tested(mut sheet: Sheet, first: bool) -> (usize, bool) {
        let mut all = || {
            sheet.test_one(first, (6, 36), "one".to_string())?;
            sheet.test(6, 36, "two".to_string())?;
            sheet.test(8, 50, "three".to_string())?;
            sheet.test(8, 54, "four".to_string())
        };
        let is_passed = all().is_some();
        (sheet.lines().len(), is_passed)
    }

    #[test]
    fn the_last_line_is_the_test_that_has_the_answer() {
        assert_eq!(tested(Sheet::passed(), false), (4, true));
        assert_eq!(tested(stopped(8, 50), true), (3, false));
        assert_eq!(tested(stopped(8, 54), true), (4, false));
        assert_eq!(tested(stopped(5, 50), true), (4, true));
    }

    #[test]
    fn of_several_with_one_answer_the_first_that_fails_is_the_last() {
        assert_eq!(tested(stopped(6, 36), false), (1, false));
        assert_eq!(tested(stopped(6, 36), true), (2, false));
    }

    #[test]
    fn bytes_are_shown_as_far_as_they_are_there() {
        assert_eq!(bytes(b"~BK\0\x05", 1, 3, "x"), "1: 42 4B 00, x");
        assert_eq!(bytes(b"~BK\0\x05", 3, 4, "x"), "3: 00 05, x");
        assert_eq!(bytes(b"", 36, 4, "x"), "36: , x");
        assert_eq!(
            unit(b"abc", 1, 2, "x"),
            "1: x of 2 bytes, all of them there"
        );
        assert_eq!(unit(b"abc", 1, 3, "x"), "1: x of 3 bytes, 2 of them there");
        assert_eq!(unit(b"abc", 9, 1, "x"), "9: x of 1 byte, 0 of them there");
    }
}
