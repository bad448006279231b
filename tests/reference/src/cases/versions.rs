//! Saved tables about the greatest side of version 1: large numbers at every place
//! of every entry and behind the entries, of which only sides count, each written,
//! and read under both versions and others.

use super::saved::{fixed, fixed_large, read, written, Saved, SIDES, SMALL};
use crate::case::{Case, ROOM_LIMIT};
use crate::psp::listing::ENTRY_NUMBERS;
use crate::psp::saved::saved_form;

/// Both versions, and about them; the others are among the wrong fields.
const VERSIONS: [u8; 5] = [0, 1, 2, 3, 0xFF];

/// Sides that are small and large as they are, by their lower half, with a sign,
/// and in the other order of bytes.
const LENGTHS: [u32; 14] = [
    0,
    1,
    SMALL - 1,
    SMALL,
    SMALL + 1,
    8_192,
    30_000,
    30_001,
    0x1_0000,
    0x1_1000,
    SMALL.swap_bytes(),
    0x8000_0000,
    0x8000_1000,
    u32::MAX,
];

/// The systematic cases.
pub fn all(cases: &mut Vec<Case>) {
    numbers(cases);
    sides(cases);
    ids(cases);
    left_over(cases);
    rooms(cases);
    entries_taken(cases);
    long(cases);
}

/// Entries whose numbers are as large as those of version 1 can be.
fn plain(entries: usize) -> Vec<u32> {
    vec![SMALL; entries * ENTRY_NUMBERS]
}

/// A table that is written, and its file under some versions that is read.
fn both_ways(table: &[u32], versions: &[u8], cases: &mut Vec<Case>) {
    cases.push(written(table, saved_form(table).len()));
    for &version in versions {
        let mut file = Saved::of(table.to_vec());
        file.version = version;
        cases.push(read(&file.bytes(), table.len()));
    }
}

/// A large number at every place of three entries.
fn numbers(cases: &mut Vec<Case>) {
    for at in 0..3 * ENTRY_NUMBERS {
        for (number, versions) in [(SMALL + 1, &VERSIONS[..]), (u32::MAX, &[1, 2])] {
            let mut table = plain(3);
            table[at] = number;
            both_ways(&table, versions, cases);
        }
    }
}

/// Every length as width and as height, and sides of every two of a few.
fn sides(cases: &mut Vec<Case>) {
    for length in LENGTHS {
        for side in SIDES {
            let mut table = plain(1);
            table[side] = length;
            both_ways(&table, &VERSIONS, cases);
        }
    }
    for width in [0, SMALL, SMALL + 1, u32::MAX] {
        for height in [0, SMALL, SMALL + 1, u32::MAX] {
            let mut table = vec![0; ENTRY_NUMBERS];
            table[SIDES[0]] = width;
            table[SIDES[1]] = height;
            both_ways(&table, &VERSIONS, cases);
        }
    }
}

/// Entries of every id, skipped or not, with a large side that few of them have.
fn ids(cases: &mut Vec<Case>) {
    for id in (0..=13).chain([255, 256, 65_535, u32::MAX]) {
        for (side, versions) in [(SIDES[0], &VERSIONS[..]), (SIDES[1], &[1, 2])] {
            let mut table = vec![0; ENTRY_NUMBERS];
            table[0] = id;
            table[1] = id % 2;
            table[side] = 30_000;
            both_ways(&table, versions, cases);
        }
    }
}

/// Large numbers behind entries of each version, and behind none.
fn left_over(cases: &mut Vec<Case>) {
    for rest in 1..ENTRY_NUMBERS {
        let tables = [plain(0), plain(1), plain(2), fixed_large(1, 0)];
        for mut table in tables {
            let length = saved_form(&table).len();
            table.resize(table.len() + rest, u32::MAX);
            cases.push(written(&table, length));
        }
    }
}

/// Files of the other version than their sides say, in every room up to one entry
/// more than needed: the version is judged before the room.
fn rooms(cases: &mut Vec<Case>) {
    let small = [fixed(0, 0), fixed(1, 0), fixed(2, 0)];
    let large = [fixed_large(1, 0), fixed_large(2, 0)];
    let small = small.map(|table| (table, 2));
    let large = large.map(|table| (table, 1));
    for (table, version) in small.into_iter().chain(large) {
        let most = table.len() + ENTRY_NUMBERS;
        let mut file = Saved::of(table);
        file.version = version;
        cases.extend((0..=most).map(|numbers| read(&file.bytes(), numbers)));
    }
}

/// Files whose last entries are taken away, or the first ones, everything else
/// made true but the version: the large side goes with them, or stays.
fn entries_taken(cases: &mut Vec<Case>) {
    for table in [fixed(3, 0), fixed_large(3, 0)] {
        for taken in (0..=3).map(|entries| entries * ENTRY_NUMBERS) {
            let (front, back) = table.split_at(taken);
            for left in [front, back] {
                both_ways(left, &[1, 2], cases);
            }
        }
    }
}

/// The longest tables that a case has room for, with a large side in the first,
/// in a middle and in the last entry.
fn long(cases: &mut Vec<Case>) {
    let most = ROOM_LIMIT as usize;
    for entry in [0, most / 2 + 1, most - 1] {
        for side in SIDES {
            let mut table = plain(most);
            table[entry * ENTRY_NUMBERS + side] = SMALL + 1;
            for version in [1, 2] {
                let mut file = Saved::of(table.clone());
                file.version = version;
                cases.push(read(&file.bytes(), table.len()));
            }
        }
    }
}
