//! A table saved as a file and read back: the length of all that follows it, a
//! version byte, the entry count, then fourteen numbers an entry. Every number is
//! big-endian, four bytes. What the entries say is not judged, but a table with a
//! large side has a version of its own, so that an older reader refuses it.

use super::listing::ENTRY_NUMBERS;
use super::number;

/// The versions: without a large side, and with one.
const SMALL: u8 = 1;
const LARGE: u8 = 2;

/// The greatest side that is not large.
const SMALL_SIDE: u32 = 4_096;

/// Where width and height stand among the numbers of an entry.
const WIDTH: usize = 10;
const HEIGHT: usize = 11;

/// Bytes of a number and of an entry.
const NUMBER: usize = 4;
const ENTRY: u64 = (NUMBER * ENTRY_NUMBERS) as u64;

/// Bytes of version and count, then of all that stands before the entries.
const VERSION_AND_COUNT: u64 = 5;
const HEAD: usize = 9;

/// What the length field says of so many entries; none where four bytes cannot.
pub fn length_field(count: u64) -> Option<u32> {
    u32::try_from(VERSION_AND_COUNT + ENTRY * count).ok()
}

/// The version that a table's whole entries are saved as. Of whatever kind an
/// entry is, its sides count; numbers behind the last entry do not.
fn version(table: &[u32]) -> u8 {
    let mut entries = table.chunks_exact(ENTRY_NUMBERS);
    let is_large = |entry: &[u32]| entry[WIDTH] > SMALL_SIDE || entry[HEIGHT] > SMALL_SIDE;
    if entries.any(is_large) {
        LARGE
    } else {
        SMALL
    }
}

/// Writes the whole entries of a table; returns number and length.
pub fn write_table(table: &[u32], destination: &mut [u8]) -> (u32, u64) {
    let count = table.len() / ENTRY_NUMBERS;
    let length = match length_field(count as u64) {
        Some(following) => NUMBER as u64 + u64::from(following),
        None => return (number::SAVED_LENGTH_WRONG, 0),
    };
    if (destination.len() as u64) < length {
        return (number::SAVED_NO_ROOM, 0);
    }
    let file = saved_form(table);
    destination[..file.len()].copy_from_slice(&file);
    (number::ACCEPTED, length)
}

/// The file of a table's whole entries, whose length four bytes can say.
pub fn saved_form(table: &[u32]) -> Vec<u8> {
    let entries = table.chunks_exact(ENTRY_NUMBERS);
    let mut following = vec![version(table)];
    following.extend((entries.len() as u32).to_be_bytes());
    following.extend(entries.flatten().flat_map(|number| number.to_be_bytes()));
    let mut file = (following.len() as u32).to_be_bytes().to_vec();
    file.extend(following);
    file
}

/// Reads a saved table; returns number and entry count. Numbers behind the
/// entries stay as they are.
pub fn read_table(file: &[u8], table: &mut [u32]) -> (u32, u64) {
    let numbers = match saved_numbers(file) {
        Ok(numbers) => numbers,
        Err(number) => return (number, 0),
    };
    let count = numbers.len() / ENTRY_NUMBERS;
    if table.len() / ENTRY_NUMBERS < count {
        return (number::SAVED_NO_ROOM, 0);
    }
    table[..numbers.len()].copy_from_slice(&numbers);
    (number::ACCEPTED, count as u64)
}

/// The numbers of all entries of a file, or what is wrong with it.
fn saved_numbers(file: &[u8]) -> Result<Vec<u32>, u32> {
    if file.len() < HEAD {
        return Err(number::SAVED_LENGTH_WRONG);
    }
    let (length, following) = file.split_at(NUMBER);
    let length = u64::from(big_endian(length));
    if length != following.len() as u64 {
        return Err(number::SAVED_LENGTH_WRONG);
    }
    let (head, entries) = file.split_at(HEAD);
    let said = head[4];
    if said != SMALL && said != LARGE {
        return Err(number::SAVED_VERSION_UNKNOWN);
    }
    let count = u64::from(big_endian(&head[5..]));
    if length != VERSION_AND_COUNT + ENTRY * count {
        return Err(number::SAVED_COUNT_WRONG);
    }
    let numbers: Vec<u32> = entries.chunks_exact(NUMBER).map(big_endian).collect();
    if said != version(&numbers) {
        return Err(number::SAVED_VERSION_DISAGREES);
    }
    Ok(numbers)
}

/// The number of a field of four bytes.
fn big_endian(field: &[u8]) -> u32 {
    let mut bytes = [0; NUMBER];
    bytes.copy_from_slice(field);
    u32::from_be_bytes(bytes)
}
