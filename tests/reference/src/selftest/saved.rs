//! Checks of saved tables: their bytes, what is read back in every room, and that
//! an accepted file is the one that writing makes.

use super::Checks;
use crate::case::Case;
use crate::cases::rows::{LARGE_ENTRY, SAVED, SAVED_LARGE};
use crate::cases::saved::{any, fixed, fixed_large, table, SIDES};
use crate::psp::listing::ENTRY_NUMBERS;
use crate::psp::saved::{length_field, read_table, write_table};
use crate::random::Random;

/// What buffers hold before a call.
const BEFORE: u8 = 0xEE;
const NUMBER_BEFORE: u32 = 0xEEEE_EEEE;

pub fn all(checks: &mut Checks, compared: &[Case]) {
    worked(checks);
    too_long(checks);
    for entries in 0..5 {
        for rest in 0..ENTRY_NUMBERS {
            tables(checks, entries, rest);
        }
    }
    changed_bytes(checks);
    sides(checks);
    versions(checks);
    let mut random = Random::new(9);
    let made: Vec<Case> = (0..3_000).map(|_| any(&mut random)).collect();
    for case in compared.iter().chain(&made) {
        if let Case::ReadTable { numbers, file } = case {
            one_file(checks, file, *numbers as usize);
        }
    }
}

/// Tables of any numbers, of version 1, and of version 2 by one number.
fn tables(checks: &mut Checks, entries: usize, rest: usize) {
    let mut tables = vec![
        table(&mut Random::new(9), entries, rest),
        fixed(entries, rest),
    ];
    if entries > 0 {
        tables.push(fixed_large(entries, rest));
    }
    for table in tables {
        writing(checks, &table);
        there_and_back(checks, &table);
    }
}

/// Number, length, and the bytes of a destination.
fn written(table: &[u32], destination: usize) -> (u32, u64, Vec<u8>) {
    let mut file = vec![BEFORE; destination];
    let (number, length) = write_table(table, &mut file);
    (number, length, file)
}

/// Number, count, and the numbers of a table.
fn read(file: &[u8], numbers: usize) -> (u32, u64, Vec<u32>) {
    let mut table = vec![NUMBER_BEFORE; numbers];
    let (number, count) = read_table(file, &mut table);
    (number, count, table)
}

fn worked(checks: &mut Checks) {
    let numbers: Vec<u32> = (1..=14).collect();
    let expected = (0, 65, SAVED.to_vec());
    checks.equal("one entry", written(&numbers, 65), expected);
    checks.equal("and back", read(&SAVED, 14), (0, 1, numbers));
    let empty = vec![0, 0, 0, 5, 1, 0, 0, 0, 0];
    checks.equal("no entry", written(&[7; 13], 9), (0, 9, empty.clone()));
    checks.equal("and back", read(&empty, 0), (0, 0, Vec::new()));
    let expected = (0, 65, SAVED_LARGE.to_vec());
    checks.equal("a large side", written(&LARGE_ENTRY, 65), expected);
    let entry = LARGE_ENTRY.to_vec();
    checks.equal("and back", read(&SAVED_LARGE, 14), (0, 1, entry));
    let ordered = written(&[0x0102_0304; 14], 65).2;
    checks.equal("big-endian", &ordered[9..14], &[1, 2, 3, 4, 1][..]);
}

/// The last count whose length four bytes can say, and one more.
fn too_long(checks: &mut Checks) {
    checks.equal("the longest", length_field(76_695_844), Some(4_294_967_269));
    checks.equal("too long", length_field(76_695_845), None);
}

/// A destination one byte short is untouched; one that is longer keeps what lies
/// behind the file, which is the same in all.
fn writing(checks: &mut Checks, table: &[u32]) {
    let length = 9 + 56 * (table.len() / ENTRY_NUMBERS);
    let refused = (73, 0, vec![BEFORE; length - 1]);
    checks.equal("a byte short", written(table, length - 1), refused);
    let (number, said, exact) = written(table, length);
    checks.equal("written", (number, said), (0, length as u64));
    let longer = [&exact[..], &[BEFORE; 3]].concat();
    let expected = (0, length as u64, longer);
    checks.equal("longer", written(table, length + 3), expected);
}

/// Every room gives the entries back and keeps the numbers behind them, or is
/// refused and untouched.
fn there_and_back(checks: &mut Checks, table: &[u32]) {
    let count = table.len() / ENTRY_NUMBERS;
    let entries = &table[..count * ENTRY_NUMBERS];
    let file = written(table, 9 + 4 * entries.len()).2;
    for numbers in 0..(count + 2) * ENTRY_NUMBERS {
        let mut after = vec![NUMBER_BEFORE; numbers];
        let expected = if numbers < entries.len() {
            (73, 0, after)
        } else {
            after[..entries.len()].copy_from_slice(entries);
            (0, count as u64, after)
        };
        checks.equal("a room", read(&file, numbers), expected);
    }
}

/// Every byte before the entry with every value: of the length and of the count
/// the true one alone, and of the version; the other version has its own refusal.
fn changed_bytes(checks: &mut Checks) {
    for (whole, other) in [(SAVED, 2), (SAVED_LARGE, 1)] {
        for at in 0..9 {
            let number = [70, 70, 70, 70, 71, 72, 72, 72, 72][at];
            for byte in 0..=255 {
                let mut file = whole;
                file[at] = byte;
                let expected = match byte {
                    _ if file == whole => 0,
                    _ if at == 4 && byte == other => 74,
                    _ => number,
                };
                checks.equal("a byte changed", read(&file, 14).0, expected);
            }
        }
    }
}

/// Numbers about 4,096 at every place of two entries and behind them: the version
/// that is written, by width and height alone.
fn sides(checks: &mut Checks) {
    for at in 0..3 * 14 - 1 {
        for (number, large) in [(4_095, 1), (4_096, 1), (4_097, 2), (u32::MAX, 2)] {
            let mut table = vec![0; 3 * 14 - 1];
            table[at] = number;
            let is_side = at < 2 * 14 && SIDES.contains(&(at % 14));
            let version = if is_side { large } else { 1 };
            let file = written(&table, 121).2;
            checks.equal("a version", (at, file[4]), (at, version));
        }
    }
}

/// Both versions of what is there, and of nothing; the rest is the same.
fn versions(checks: &mut Checks) {
    for version in 0..=255 {
        let mut empty = [0, 0, 0, 5, 1, 0, 0, 0, 0];
        empty[4] = version;
        let number = match version {
            1 => 0,
            2 => 74,
            _ => 71,
        };
        checks.equal("no entry", read(&empty, 14).0, number);
    }
    let mut small = LARGE_ENTRY;
    small[11] = 4_096;
    let mut file = written(&small, 65).2;
    checks.equal("no large side", read(&file, 14).0, 0);
    file[4] = 2;
    checks.equal("said to have one", read(&file, 13).0, 74);
    file[4] = 1;
    // The last byte of the height: 4,097.
    file[9 + 4 * 11 + 3] = 1;
    checks.equal("not said to have one", read(&file, 13).0, 74);
    file[4] = 2;
    checks.equal("no room for it", read(&file, 13).0, 73);
    checks.equal("a large side by one", read(&file, 14).0, 0);
}

/// An accepted file is the one that writing makes of what was read, and a refusal
/// writes nothing.
fn one_file(checks: &mut Checks, file: &[u8], numbers: usize) {
    let (number, count, table) = read(file, numbers);
    if number == 0 {
        let entries = &table[..count as usize * ENTRY_NUMBERS];
        let expected = (0, file.len() as u64, file.to_vec());
        checks.equal("written again", written(entries, file.len()), expected);
    } else {
        let untouched = table.iter().all(|&number| number == NUMBER_BEFORE);
        checks.that("nothing read", untouched && count == 0);
    }
}
