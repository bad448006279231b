//! Facts and names at a place: at every block of files that are accepted and of
//! files that are refused, and a byte beside it; where header and chunk just fit
//! the input, and just do not; at places that no input has; and at headers that
//! differ in one field.

use super::{alphas, beginnings, input, mostly_valid};
use crate::case::{Case, ROOM_LIMIT};
use crate::psp::chunks::BlockHeader;
use crate::psp::listing::list;
use crate::random::Random;
use crate::samples;

pub fn all(cases: &mut Vec<Case>) {
    for file in files() {
        for place in places(&file) {
            for place in [place - 1, place, place + 1] {
                cases.push(at(place, &file));
            }
        }
        let length = file.len() as u64;
        cases.extend(outside(length).map(|place| at(place, &file)));
    }
    cuts(cases);
    headers(cases);
}

fn at(place: u64, input: &[u8]) -> Case {
    Case::Place {
        place,
        input: input.to_vec(),
    }
}

/// Those of `beginnings` are refused, but for one that has a full table.
fn files() -> Vec<Vec<u8>> {
    let pictures = [
        samples::layers11(),
        samples::masks(),
        samples::alphas(),
        samples::early(),
        samples::skips(),
        alphas::small(),
    ];
    let mut files: Vec<Vec<u8>> = pictures.iter().map(|picture| picture.bytes()).collect();
    files.extend(beginnings::files().map(|(_, file)| file));
    files
}

/// The places of all blocks that are listed.
fn places(file: &[u8]) -> Vec<u64> {
    let entries = list(file, ROOM_LIMIT as usize).entries;
    let place = |entry: &crate::psp::listing::Entry| u64::from(entry.header_place);
    entries.iter().map(place).collect()
}

/// Near the end of an input, where no header fits any more, and far behind it:
/// sums of these and of a head's size do not fit 64 bits.
fn outside(length: u64) -> [u64; 14] {
    [
        0,
        length - 14,
        length - 13,
        length - 1,
        length,
        length + 1,
        (1 << 32) + 102,
        1 << 63,
        u64::MAX - 389,
        u64::MAX - 388,
        u64::MAX - 14,
        u64::MAX - 13,
        u64::MAX - 1,
        u64::MAX,
    ]
}

/// A layer, the selection and an alpha channel of the file of 953 bytes, with the
/// size of its chunk.
const BLOCKS: [(usize, usize); 3] = [(102, 375), (521, 36), (617, 292)];

/// The file ends inside the header, inside the chunk, or right behind either.
fn cuts(cases: &mut Vec<Case>) {
    let file = alphas::small().bytes();
    for (place, size) in BLOCKS {
        let head = BlockHeader::SIZE as usize + size;
        for length in [0, 1, 13, 14, 15, head - 1, head, head + 1] {
            cases.push(at(place as u64, &file[..place + length]));
        }
    }
}

/// Each byte of a header is another; each kind has the lengths of every kind, and
/// a total that is just enough, one too small, or far too large.
fn headers(cases: &mut Vec<Case>) {
    let file = alphas::small().bytes();
    for (place, size) in BLOCKS {
        let mut with = |offset: usize, bytes: &[u8]| {
            let mut file = file.clone();
            file[place + offset..][..bytes.len()].copy_from_slice(bytes);
            cases.push(at(place as u64, &file));
        };
        for offset in 0..BlockHeader::SIZE as usize {
            for byte in [0, 1, 2, 4, 6, 8, 0x80, 0xFF] {
                with(offset, &[byte]);
            }
        }
        let size = size as u32;
        for initial in [0, 2, 4, 12, 36, 38, 292, 375, size - 1, size + 1] {
            with(6, &initial.to_le_bytes());
        }
        for total in [0, size - 1, size, size + 1, u32::MAX] {
            with(10, &total.to_le_bytes());
        }
    }
}

/// A place of a file, valid or damaged: mostly that of a block.
pub fn any(random: &mut Random) -> Case {
    let input = if random.one_in(2) {
        input(random)
    } else {
        mostly_valid(random)
    };
    let length = input.len() as u64;
    let places = places(&input);
    let anywhere = random.below(length + 20);
    let place = match places.get(random.index(places.len() + 1)) {
        Some(&place) if !random.one_in(8) => place,
        Some(&place) => place.wrapping_add(random.pick(&[1, 14, u64::MAX, 1 << 32])),
        None => random.pick(&[anywhere, anywhere, anywhere, length, 1 << 63, u64::MAX]),
    };
    Case::Place { place, input }
}
