//! The tuned walker gives the library's answers: number, place, count and the whole table, with a
//! table and without, in many rooms. Nothing is timed before that is shown.
//!
//! The files are all systematic ones of the tests' generator, and random ones of it, valid and damaged;
//! each random one again with an end cut off, and overwritten where its blocks have their fields.

use crate::generator::case::Case;
use crate::generator::cases;
use crate::generator::random::Random;
use crate::library::numbers as library;
use crate::sides::{Answer, Lister, ENTRY_NUMBERS};
use std::fs;

/// Random files that are enough before something is timed.
pub const FILES: usize = 40_000;

/// Files that the generator makes of one picture.
const FAMILY: usize = 16;

/// What a table is filled with before.
const UNTOUCHED: u32 = 0xA5A5_A5A5;

/// Values about the limits of some field.
const VALUES: [u32; 22] = [
    0,
    1,
    2,
    3,
    4,
    5,
    6,
    12,
    13,
    14,
    36,
    292,
    374,
    375,
    30_000,
    30_001,
    32_767,
    32_768,
    0x7FFF_FFFF,
    0x8000_0000,
    0xFFFF_8000,
    0xFFFF_FFFF,
];

/// Compares the answers to the systematic files and to so many of a seed, or a few more, and says how
/// often each number was the answer in ample room.
pub fn report(seed: u64, files: usize) {
    let mut random = Random::new(seed);
    let mut seen = Seen::default();
    for case in cases::systematic() {
        if let Case::Listing { room, input } = case {
            seen.add(&input, room as usize, &mut random);
        }
    }
    let files = seen.files() + files;
    while seen.files() < files {
        for (room, input) in cases::family(&mut random, FAMILY) {
            let table = seen.add(&input, room, &mut random);
            let cut = random.index(input.len() + 1);
            seen.add(&input[..cut], room, &mut random);
            for _ in 0..2 {
                let input = overwritten(&input, &table, &mut random);
                seen.add(&input, room, &mut random);
            }
        }
    }
    // The longest input, and one that is a byte longer: of their zeros hardly a page is touched.
    let input = vec![0; (1 << 30) + 1];
    seen.add(&input[1..], 0, &mut random);
    seen.add(&input, 0, &mut random);
    println!(
        "The walker gave the library's answers to {} files. Answers 0 to 11: {}.\n",
        seen.files(),
        seen.answers.map(|count| count.to_string()).join(", ")
    );
}

/// How often each number was the answer, 12 apart: in ample room it never is.
#[derive(Default)]
struct Seen {
    answers: [usize; 12],
}

impl Seen {
    fn files(&self) -> usize {
        self.answers.iter().sum()
    }

    /// Lists a file in rooms about what it needs, and in a given one. Gives its table.
    fn add(&mut self, input: &[u8], room: usize, random: &mut Random) -> Vec<u32> {
        let needed = library::count(input, usize::MAX).count;
        let ((number, ..), mut table) = same(input, (needed + 2) * ENTRY_NUMBERS);
        self.answers[number as usize] += 1;
        table.truncate(needed * ENTRY_NUMBERS);
        let fewer = random.index(needed + 1);
        for room in [needed, needed.saturating_sub(1), fewer, room, 0] {
            // Numbers behind the last whole entry are no room.
            same(input, room * ENTRY_NUMBERS + random.index(ENTRY_NUMBERS));
        }
        table
    }
}

/// Lists a file into a table of so many numbers. Gives the library's answer, and the table.
fn same(input: &[u8], numbers: usize) -> (Answer, Vec<u32>) {
    let (answer, table) = listed(Lister::Library, input, numbers);
    for lister in [Lister::LibraryCount, Lister::Walker, Lister::WalkerCount] {
        let (other, filled) = listed(lister, input, numbers);
        let is_filled = filled == table || lister.is_count();
        if other != answer || !is_filled {
            let _ = fs::write("target/bench/differs.psp", input);
            panic!(
                "{numbers} numbers, target/bench/differs.psp: library {answer:?}, {} {other:?}",
                lister.name()
            );
        }
    }
    (answer, table)
}

fn listed(lister: Lister, input: &[u8], numbers: usize) -> (Answer, Vec<u32>) {
    let mut table = vec![UNTOUCHED; numbers];
    (lister.list(input, &mut table), table)
}

/// A file with one to three fields of its blocks overwritten, by bytes or by values of four bytes.
fn overwritten(input: &[u8], table: &[u32], random: &mut Random) -> Vec<u8> {
    let mut file = input.to_vec();
    for _ in 0..random.between(1, 3) {
        let entry = random.index(table.len() / ENTRY_NUMBERS + 1) * ENTRY_NUMBERS;
        // Behind the last entry stands the block that is refused, if one is.
        let (place, owned) = match table.get(entry..entry + 5) {
            Some(entry) => (entry[3] as usize, entry[4] as usize),
            None => (file.len().saturating_sub(400), 400),
        };
        // A header has most of the rules, and a layer's name none.
        let offset = match random.below(4) {
            0 => random.index(owned),
            1 => random.index(owned.min(26)),
            2 => owned.saturating_sub(random.index(120) + 1),
            _ => 4 + random.pick(&[0, 2, 6, 10, 14, 18, 20]),
        };
        let value = random.pick(&VALUES).to_le_bytes();
        let bytes = match random.below(3) {
            0 => &value[..1],
            1 => &value[..2],
            _ => &value[..],
        };
        for (to, from) in file.iter_mut().skip(place + offset).zip(bytes) {
            *to = *from;
        }
    }
    file
}
