//! Saved tables, written and read: files cut and grown, every field wrong alone
//! and with others, so that the order of the refusals shows, and rooms around
//! what is needed.

use super::streams::destination_near;
use crate::case::{Case, DESTINATION_LIMIT, ROOM_LIMIT};
use crate::psp::listing::{list, Entry, ENTRY_NUMBERS};
use crate::psp::saved::saved_form;
use crate::random::Random;
use crate::samples;

/// Where width and height stand among the numbers of an entry.
pub const SIDES: [usize; 2] = [10, 11];

/// The greatest side of version 1.
pub const SMALL: u32 = 4_096;

/// A saved table by its fields, which need not agree.
#[derive(Clone)]
pub struct Saved {
    pub length: u32,
    pub version: u8,
    pub count: u32,
    pub entries: Vec<u32>,
}

impl Saved {
    /// The true one of whole entries.
    pub fn of(entries: Vec<u32>) -> Saved {
        Saved {
            length: 5 + 4 * entries.len() as u32,
            version: saved_form(&entries)[4],
            count: (entries.len() / ENTRY_NUMBERS) as u32,
            entries,
        }
    }

    pub fn bytes(&self) -> Vec<u8> {
        let mut bytes = self.length.to_be_bytes().to_vec();
        bytes.push(self.version);
        let numbers = [self.count].into_iter().chain(self.entries.clone());
        bytes.extend(numbers.flat_map(u32::to_be_bytes));
        bytes
    }
}

/// Makes the length field true, if there is one.
fn mend(file: &mut [u8]) {
    let length = (file.len() as u32).wrapping_sub(4);
    if let Some(field) = file.get_mut(..4) {
        field.copy_from_slice(&length.to_be_bytes());
    }
}

/// So many entries and numbers left over. Some of the numbers tell the order of
/// their bytes, some are full of ones or zeros. Most tables are of version 1, and
/// some of the others by one side alone.
pub fn table(random: &mut Random, entries: usize, rest: usize) -> Vec<u32> {
    let number = |_| {
        let any = random.next() as u32;
        let small = any % 600;
        random.pick(&[any, any, small, 0, u32::MAX, 0x80, 0x8000_0000, 0x0102_0304])
    };
    let numbers = entries * ENTRY_NUMBERS + rest;
    let mut table: Vec<u32> = (0..numbers).map(number).collect();
    let turn = random.below(5);
    if turn > 0 {
        make_small(&mut table);
    }
    if turn == 1 && entries > 0 {
        let at = random.index(entries) * ENTRY_NUMBERS + random.pick(&SIDES);
        table[at] = random.pick(&[SMALL, SMALL + 1, 30_000, u32::MAX]);
    }
    table
}

/// Makes every side one of version 1. What is left over stays as it is.
fn make_small(table: &mut [u32]) {
    for entry in table.chunks_exact_mut(ENTRY_NUMBERS) {
        for side in SIDES {
            entry[side] %= SMALL + 1;
        }
    }
}

/// The same tables each time, for the systematic cases, of version 1.
pub fn fixed(entries: usize, rest: usize) -> Vec<u32> {
    let mut table = table(&mut Random::new(4), entries, rest);
    make_small(&mut table);
    table
}

/// The same of version 2, by the last height alone; there has to be an entry.
pub fn fixed_large(entries: usize, rest: usize) -> Vec<u32> {
    let mut table = fixed(entries, rest);
    table[(entries - 1) * ENTRY_NUMBERS + SIDES[1]] = SMALL + 1;
    table
}

pub fn written(table: &[u32], destination: usize) -> Case {
    let numbers = table.iter().flat_map(|number| number.to_le_bytes());
    Case::WriteTable {
        destination: destination as u32,
        numbers: numbers.collect(),
    }
}

pub fn read(file: &[u8], numbers: usize) -> Case {
    Case::ReadTable {
        numbers: numbers as u32,
        file: file.to_vec(),
    }
}

/// A table written, or a file read that is true or damaged.
pub fn any(random: &mut Random) -> Case {
    let entries = match random.below(40) {
        0 => random.pick(&[40, 355, 356, 357, 400, 511, 512]),
        _ => random.index(7),
    };
    let rest = random.index(ENTRY_NUMBERS);
    let table = table(random, entries, rest);
    let mut file = saved_form(&table);
    if random.one_in(3) {
        let destination = destination_near(random, file.len() as u64);
        return written(&table, destination as usize);
    }
    damage(random, &mut file);
    let near = entries as i64 + random.pick(&[0, 0, 0, 1, 1, 5, -1]);
    let room = near.clamp(0, i64::from(ROOM_LIMIT)) as usize;
    read(&file, room * ENTRY_NUMBERS + random.index(ENTRY_NUMBERS))
}

/// Damages a file once or twice, or leaves it as it is. Half of the damaged ones
/// have a true length in the end, or nothing else would be looked at.
fn damage(random: &mut Random, file: &mut Vec<u8>) {
    if random.one_in(4) {
        return;
    }
    for _ in 0..random.between(1, 2) {
        damage_once(random, file);
    }
    if random.one_in(2) {
        mend(file);
    }
}

fn damage_once(random: &mut Random, file: &mut Vec<u8>) {
    let whole = file.len();
    match random.below(8) {
        0 => file.truncate(random.index(whole + 1)),
        1 => {
            let more = random.pick(&[1, 2, 4, 55, 56, 57]);
            file.extend(random.bytes(more));
        }
        2 => file.truncate(whole.saturating_sub(random.pick(&[1, 4, 55, 56, 57]))),
        // The version, the count's last byte, one of the head, any other.
        turn => {
            let head = random.index(9);
            let any = random.index(whole);
            let at = [4, 8, head, head, any][turn as usize - 3];
            let byte = random.byte();
            if let Some(to) = file.get_mut(at) {
                let near = [to.wrapping_add(1), to.wrapping_sub(1)];
                *to = random.pick(&[near[0], near[1], 0, 1, 2, byte]);
            }
        }
    }
}

/// The systematic cases.
pub fn all(cases: &mut Vec<Case>) {
    for entries in 0..=3 {
        let table = fixed(entries, 0);
        cut_and_grown(&table, cases);
        wrong_fields(&table, cases);
        wrong_together(&table, cases);
        rooms(&table, cases);
    }
    cut_and_grown(&fixed_large(2, 0), cases);
    wrong_fields(&fixed_large(1, 0), cases);
    for entries in 1..=2 {
        wrong_together(&fixed_large(entries, 0), cases);
    }
    for entries in 1..=3 {
        rooms(&fixed_large(entries, 0), cases);
    }
    for table in [fixed(1, 0), fixed_large(1, 0)] {
        turned_bits(&table, cases);
    }
    all_destinations(cases);
    of_samples(cases);
    large(cases);
}

/// Files of every length up to the whole and three bytes more, as they are and
/// with a true length.
fn cut_and_grown(table: &[u32], cases: &mut Vec<Case>) {
    let whole = saved_form(table);
    for length in 0..=whole.len() + 3 {
        let numbers = table.len() + length % ENTRY_NUMBERS;
        let mut file = whole.clone();
        file.resize(length, 0);
        cases.push(read(&file, numbers));
        mend(&mut file);
        cases.push(read(&file, numbers));
    }
}

/// Lengths and counts that none of these files has.
const HUGE: [u32; 4] = [0x7FFF_FFFF, 0x8000_0000, 0xFFFF_FFFE, 0xFFFF_FFFF];

const VERSIONS: [u8; 9] = [0, 1, 2, 3, 0x10, b'1', 0x80, 0x81, 0xFF];

/// Lengths off by a byte, a field and an entry, of other parts of the file, and
/// of another order of bytes.
fn lengths(length: u32) -> Vec<u32> {
    let parts = [length + 4, length - 4, length - 5, length + 56];
    let near = [length + 1, length - 1, length.wrapping_sub(56)];
    let others = [0, 1, 5, 9, length.swap_bytes(), length << 8];
    [&parts[..], &near, &others, &HUGE].concat()
}

/// Counts off by one, of numbers and of bytes, of another order of bytes, and
/// those of as many bytes modulo 2 to the 16th and to the 32nd.
fn counts(count: u32) -> Vec<u32> {
    let near = [count + 1, count.wrapping_sub(1), 0, 1];
    let others = [14 * count, 56 * count, count.swap_bytes()];
    let mut counts = [&near[..], &others, &HUGE].concat();
    counts.push(count + (1 << 13));
    counts.extend((1..8).map(|times| count + (times << 29)));
    counts
}

/// Each in a room that is enough for the entries there are, and in one that is
/// not.
fn read_twice(files: &[Saved], cases: &mut Vec<Case>) {
    for file in files {
        let enough = file.entries.len();
        let too_few = enough.saturating_sub(1);
        cases.extend([enough, too_few].map(|numbers| read(&file.bytes(), numbers)));
    }
}

/// Each value of a field in each of the files.
fn each<T: Copy>(files: &[Saved], values: &[T], set: fn(&mut Saved, T)) -> Vec<Saved> {
    let with = |file: &Saved, value| {
        let mut changed = file.clone();
        set(&mut changed, value);
        changed
    };
    let with_each = |file| values.iter().map(move |&value| with(file, value));
    files.iter().flat_map(with_each).collect()
}

const LENGTH: fn(&mut Saved, u32) = |file, length| file.length = length;
const VERSION: fn(&mut Saved, u8) = |file, version| file.version = version;
const COUNT: fn(&mut Saved, u32) = |file, count| file.count = count;

/// Every field wrong in every way, the others true.
fn wrong_fields(table: &[u32], cases: &mut Vec<Case>) {
    let file = Saved::of(table.to_vec());
    let (length, count) = (file.length, file.count);
    let file = [file];
    read_twice(&each(&file, &lengths(length), LENGTH), cases);
    read_twice(&each(&file, &VERSIONS, VERSION), cases);
    read_twice(&each(&file, &counts(count), COUNT), cases);
}

/// Every field true or wrong, with every other.
fn wrong_together(table: &[u32], cases: &mut Vec<Case>) {
    let file = Saved::of(table.to_vec());
    let (length, count) = (file.length, file.count);
    let lengths = [length, length + 56, length - 1, u32::MAX];
    let counts = [count, count + 1, count.wrapping_sub(1), count + (1 << 29)];
    let files = each(&[file], &lengths, LENGTH);
    let files = each(&files, &[1, 0, 2, 3], VERSION);
    read_twice(&each(&files, &counts, COUNT), cases);
}

/// Tables of every size up to one entry more than needed, and all but one number
/// of another.
fn rooms(table: &[u32], cases: &mut Vec<Case>) {
    let file = saved_form(table);
    let most = table.len() + 2 * ENTRY_NUMBERS;
    cases.extend((0..most).map(|numbers| read(&file, numbers)));
}

/// Every bit of all that stands before the entries, and one of each byte of them.
fn turned_bits(table: &[u32], cases: &mut Vec<Case>) {
    let file = saved_form(table);
    let of_head = (0..9).flat_map(|at| (0..8).map(move |bit| (at, bit)));
    let of_entry = (9..file.len()).map(|at| (at, at % 8));
    for (at, bit) in of_head.chain(of_entry) {
        let mut turned = file.clone();
        turned[at] ^= 1 << bit;
        cases.push(read(&turned, ENTRY_NUMBERS));
    }
}

/// Tables with up to thirteen numbers left over, and of version 2 with none or
/// thirteen.
fn all_destinations(cases: &mut Vec<Case>) {
    for entries in 0..=4 {
        for rest in 0..ENTRY_NUMBERS {
            destinations(&fixed(entries, rest), cases);
        }
    }
    for entries in 1..=4 {
        for rest in [0, ENTRY_NUMBERS - 1] {
            destinations(&fixed_large(entries, rest), cases);
        }
    }
}

/// Destinations of nothing, about the smallest file and about the table's.
fn destinations(table: &[u32], cases: &mut Vec<Case>) {
    let length = saved_form(table).len();
    let near = [length - 4, length - 1, length, length + 1, length + 3];
    for destination in near.into_iter().chain([0, 1, 8, 9, length + 56]) {
        cases.push(written(table, destination));
    }
}

/// What listings give, there and back, with room and with one byte or number too
/// few.
fn of_samples(cases: &mut Vec<Case>) {
    for sample in samples::NAMES.into_iter().filter_map(samples::sample) {
        let entries = list(&sample.bytes(), ROOM_LIMIT as usize).entries;
        let table: Vec<u32> = entries.iter().flat_map(Entry::numbers).collect();
        let file = saved_form(&table);
        for less in [0, 1] {
            cases.push(written(&table, file.len() - less));
            cases.push(read(&file, table.len() - less));
        }
    }
}

/// The longest tables that a destination and a table of a case have room for, and
/// longer ones.
fn large(cases: &mut Vec<Case>) {
    let most = DESTINATION_LIMIT as usize;
    for (entries, rest) in [(356, 0), (356, 13), (357, 0), (512, 13)] {
        let table = fixed(entries, rest);
        let length = saved_form(&table).len();
        cases.extend([most, length.min(most), most - 56].map(|size| written(&table, size)));
    }
    let room = ROOM_LIMIT as usize * ENTRY_NUMBERS;
    for entries in [356, 511, 512, 513, 600] {
        let file = saved_form(&fixed(entries, 0));
        cases.extend([room - 1, room, room + 13].map(|numbers| read(&file, numbers)));
    }
}
