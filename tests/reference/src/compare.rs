//! Compares another implementation's answer lines with the expected ones, and
//! counts the answer numbers that occurred.

use std::collections::BTreeMap;
use std::io::{self, BufRead, Read, Write};

use crate::answers::{answer, Answer};
use crate::case::Case;
use crate::library::Reference;

/// Differences that are printed; all are counted.
const SHOWN: u64 = 20;

/// Every answer number of document 01 and of the requests that have landed.
pub const NUMBERS: [u32; 36] = [
    0, 1, 2, 3, 4, 5, 6, 7, 8, 9, 10, 11, 12, 20, 21, 22, 23, 24, 25, 26, 27, 30, 31, 40, 41, 42,
    43, 44, 45, 46, 47, 70, 71, 72, 73, 74,
];

/// How often each number occurred, for each kind.
#[derive(Default)]
struct Histogram {
    counts: BTreeMap<u32, BTreeMap<u8, u64>>,
    kinds: BTreeMap<u8, u64>,
}

impl Histogram {
    fn add(&mut self, kind: u8, number: Option<u32>) {
        *self.kinds.entry(kind).or_default() += 1;
        if let Some(number) = number {
            let kinds = self.counts.entry(number).or_default();
            *kinds.entry(kind).or_default() += 1;
        }
    }

    fn lines(&self) -> Vec<String> {
        let mut lines = vec![format!("cases{}", by_kind(&self.kinds))];
        for (number, kinds) in &self.counts {
            let times: u64 = kinds.values().sum();
            lines.push(format!(
                "answer {}: {} times{}",
                number,
                times,
                by_kind(kinds)
            ));
        }
        lines
    }
}

fn by_kind(kinds: &BTreeMap<u8, u64>) -> String {
    let one = |(&kind, times)| format!(" {}:{}", char::from(kind), times);
    kinds.iter().map(one).collect()
}

/// What has been compared so far; differences are reported as they come.
pub struct Comparison<'a> {
    report: &'a mut dyn Write,
    histogram: Histogram,
    cases: u64,
    differences: u64,
}

impl<'a> Comparison<'a> {
    pub fn new(report: &'a mut dyn Write) -> Comparison<'a> {
        Comparison {
            report,
            histogram: Histogram::default(),
            cases: 0,
            differences: 0,
        }
    }

    /// Holds the next line of a program to a case's answer. The line feed is
    /// part of the line: without it the line differs.
    pub fn read(&mut self, case: &Case, answers: &mut dyn BufRead) -> io::Result<()> {
        let mut got = Vec::new();
        answers.read_until(b'\n', &mut got)?;
        let complete = got.pop() == Some(b'\n');
        let mut got = String::from_utf8_lossy(&got).into_owned();
        if !complete {
            got.push_str(" (no line feed)");
        }
        self.hold(case.kind(), &answer(&Reference, case), &got)
    }

    /// Holds what a program wrote after its last line: nothing.
    pub fn end(&mut self, answers: &mut dyn Read) -> io::Result<()> {
        let mut rest = Vec::new();
        answers.read_to_end(&mut rest)?;
        if !rest.is_empty() {
            self.differences += 1;
            writeln!(self.report, "{} bytes after the last case", rest.len())?;
        }
        Ok(())
    }

    /// Holds a line to the expected answer of its kind.
    pub fn hold(&mut self, kind: u8, expected: &Answer, got: &str) -> io::Result<()> {
        self.histogram.add(kind, expected.number);
        if got != expected.line {
            self.differences += 1;
            if self.differences <= SHOWN {
                writeln!(self.report, "case {} differs", self.cases)?;
                writeln!(self.report, "  expected {}", expected.line)?;
                writeln!(self.report, "  got      {}", got)?;
            }
        }
        self.cases += 1;
        Ok(())
    }

    /// Reports how often each number occurred. True if no line differed and
    /// no number is missing but those that are compared elsewhere.
    pub fn finish(self, elsewhere: &[u32]) -> io::Result<bool> {
        for line in self.histogram.lines() {
            writeln!(self.report, "{}", line)?;
        }
        let occurred = |number: &u32| self.histogram.counts.contains_key(number);
        let mut complete = true;
        for number in NUMBERS.iter().filter(|number| !occurred(number)) {
            if elsewhere.contains(number) {
                writeln!(self.report, "answer {}: compared by tests/linked", number)?;
            } else {
                complete = false;
                writeln!(self.report, "answer {}: NOT REACHED", number)?;
            }
        }
        writeln!(
            self.report,
            "{} cases, {} differences",
            self.cases, self.differences
        )?;
        Ok(complete && self.differences == 0)
    }
}
