//! Many listings and nothing else, compared number by number.

use std::time::Instant;

use reference::cases;
use reference::library::{Library, Reference};
use reference::psp::listing::ENTRY_NUMBERS;
use reference::random::Random;

use crate::linked::Linked;

/// What the tables hold before a listing.
const BEFORE: u32 = 0xEEEE_EEEE;

/// Listings between two lines of progress.
const STEP: u64 = 100_000;

/// Inputs made from one picture.
const FAMILY: usize = 20;

/// Answers of a listing.
const NUMBERS: usize = 13;

struct Figures {
    listings: u64,
    bytes: u64,
    entries: u64,
    answers: [u64; NUMBERS],
    differences: u64,
}

/// True if no listing differed.
pub fn run(seed: u64, count: u64) -> bool {
    let began = Instant::now();
    let mut random = Random::new(seed);
    let mut figures = Figures {
        listings: 0,
        bytes: 0,
        entries: 0,
        answers: [0; NUMBERS],
        differences: 0,
    };
    while figures.listings < count {
        for (room, input) in cases::family(&mut random, FAMILY) {
            compare(&mut figures, room, &input);
        }
        if figures.listings % STEP == 0 || figures.listings >= count {
            print(&figures, began.elapsed().as_secs());
        }
    }
    figures.differences == 0
}

/// Tables end anywhere in an entry, and ample ones a few entries past the last
/// that is listed; what follows the entries stays as it was.
fn compare(figures: &mut Figures, room: usize, input: &[u8]) {
    let rest = figures.listings as usize % ENTRY_NUMBERS;
    let needed = Reference.count(input, room).2 as usize;
    let room = room.min(needed + 3);
    let mut expected = vec![BEFORE; room * ENTRY_NUMBERS + rest];
    let mut got = expected.clone();
    let answer = Reference.list(input, &mut expected);
    let same = Linked.list(input, &mut got) == answer && got == expected;
    if !same {
        figures.differences += 1;
        println!(
            "listing {} differs: expected {:?}",
            figures.listings, answer
        );
    }
    figures.listings += 1;
    figures.bytes += input.len() as u64;
    figures.entries += answer.2;
    figures.answers[answer.0 as usize] += 1;
}

fn print(figures: &Figures, seconds: u64) {
    let answers: Vec<String> = (0..)
        .zip(&figures.answers)
        .map(|(number, times)| format!("{}:{}", number, times))
        .collect();
    println!(
        "{} listings, {} bytes, {} entries, answers {}, {} differences, {} s",
        figures.listings,
        figures.bytes,
        figures.entries,
        answers.join(" "),
        figures.differences,
        seconds,
    );
}
