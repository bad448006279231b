//! The walk that psp steps shows is the listing's: over sample files of the current folder, each cut
//! at each of its places and with one byte changed there. Built and run by host/check.

extern crate psp as library;

// Here only some of what they have is called.
#[allow(dead_code)]
#[path = "../src"]
mod command {
    pub mod answer;
    pub mod beginning;
    pub mod fields;
    pub mod holder;
    pub mod judged;
    pub mod lengths;
    pub mod lines;
    pub mod name;
    pub mod named;
    pub mod parent;
    pub mod pencil;
    pub mod placing;
    pub mod shape;
    pub mod sheet;
    pub mod tested;
    pub mod words;
}
use command::*;

/// The library, under the name that the command's modules use.
mod psp {
    pub use library::{ffi, refusal};
}

use library::ffi::{Entry, Listed, ENTRY_NUMBERS};
use std::fs;

/// Lists an input, and writes its walk down.
fn walked(input: &[u8], table: &mut [u32]) -> (Listed, Vec<String>) {
    let answer = library::numbers::list(input, table);
    let listed = &table[..answer.count * ENTRY_NUMBERS];
    let mut out = Vec::new();
    let written = pencil::Pencil::new(&mut out, input).walk(listed, Some(answer), |_| ());
    written.expect("a vector takes all");
    let text = String::from_utf8(out).expect("text");
    (answer, text.lines().map(str::to_string).collect())
}

/// The number that a line begins with.
fn place(line: &str) -> usize {
    let number = line.split(':').next();
    number
        .and_then(|number| number.parse().ok())
        .expect("a place")
}

/// Goes over the lines that begin with a place: each entry has its index and its place, and so many
/// parents are open as its level says. Gives the last one.
fn followed<'a>(lines: &'a [String], entries: &[Entry]) -> &'a str {
    let mut entries = entries.iter().enumerate();
    let (mut level, mut last) = (0, "");
    for line in lines.iter().filter(|line| !line.starts_with(' ')) {
        assert!(!last.contains(": the walk stops, "), "{}", line);
        assert!(last.is_empty() || place(last) <= place(line), "{}", line);
        if line.contains(": entry ") {
            let (index, entry) = entries.next().expect("an entry");
            let begin = format!("{}: entry {}, ", entry.place, index);
            assert!(line.starts_with(&begin), "{} in {}", begin, line);
            assert_eq!(level, entry.level, "{}", line);
        }
        level += u32::from(line.contains(": the walk goes in, "));
        level -= u32::from(line.contains(": the walk goes out, "));
        last = line;
    }
    assert_eq!(entries.next(), None);
    last
}

/// Whether a line below a place is of a test that a refusal comes from.
fn is_test_of(answer: &Listed, line: &str) -> bool {
    let begins = line.starts_with(&format!("{}: ", answer.place));
    let has = |words: &str| line.contains(words);
    match answer.number {
        2 if has(" of them there") => begins && !has("all of them"),
        2 if has("the file header takes 36") => answer.place == 0,
        2 => has(" is wanted, and none stands before it"),
        3 => has("the signature: it must be "),
        4 => begins && has("version ") && !has("version 3.0"),
        5 => {
            begins
                && has(", the mark: ")
                && !line.starts_with(&format!("{}: 7E 42 4B 00,", answer.place))
        }
        6 => has(" length ") || has("the block ends at ") || has(" left in "),
        7 => has(" block (id ") && !has("; it is "),
        8 => begins,
        9 => has(" announced, and ") || has(" may stand bitmap "),
        10 => has(" announced, and ") || has("channels of bitmap 0: "),
        11 => has("compression type 2: 0, raw"),
        _ => false,
    }
}

/// Walks over an input, and gives the answer's number.
fn check(input: &[u8], table: &mut [u32]) -> u32 {
    let (answer, lines) = walked(input, table);
    let listed = &table[..answer.count * ENTRY_NUMBERS];
    let entries: Vec<Entry> = lines::entries(listed).collect();
    let last = followed(&lines, &entries);
    if answer.number == 0 {
        let end = ": the end of the input: the walk ends, and the file is accepted";
        assert_eq!(last, format!("{}{}", answer.place, end));
    } else {
        let stop = format!(": the walk stops, {} at {}: ", answer.number, answer.place);
        assert!(last.contains(&stop), "{} in {}", stop, last);
        let test = lines.last().expect("a line");
        assert!(
            is_test_of(&answer, test.trim_start()),
            "{:?}: {}",
            answer,
            test
        );
    }
    answer.number
}

#[test]
fn every_walk_is_the_listing_s() {
    let mut seen = [0; 12];
    let mut table = [0; 64 * ENTRY_NUMBERS];
    for (file, step) in [
        ("grey521", 1),
        ("palette", 5),
        ("bits1", 5),
        ("greys", 11),
        ("skips", 11),
        ("alphas", 7),
        ("early", 7),
        ("mug", 211),
    ] {
        let whole = fs::read(format!("{}.psp", file)).expect("a sample");
        for place in (0..whole.len()).step_by(step) {
            seen[check(&whole[..place], &mut table) as usize] += 1;
            let mut input = whole.clone();
            for byte in [0, 2, 6, 0xFF] {
                input[place] = byte;
                seen[check(&input, &mut table) as usize] += 1;
            }
        }
    }
    let unseen: Vec<usize> = (0..12).filter(|&number| seen[number] == 0).collect();
    assert_eq!(unseen, [1], "{:?}", seen);
}
