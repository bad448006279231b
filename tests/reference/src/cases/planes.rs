//! The plane reader's numbers, true, nearly so, and nothing like it.

use super::streams::{destination_near, stream, HUGE};
use crate::case::{Case, Stored};
use crate::random::Random;

const CODES: [u32; 9] = [0, 1, 2, 3, 255, 256, 257, 65_536, u32::MAX];

/// A number near the true one, or nothing like it.
fn around(random: &mut Random, value: u64) -> u64 {
    match random.below(24) {
        0 => 0,
        1 => value.wrapping_add(1),
        2 => value.wrapping_sub(1),
        3 => random.pick(&HUGE),
        4 => value.wrapping_sub(random.below(20)),
        5 => random.below(70),
        6 => (1u64 << 32) | value,
        _ => value,
    }
}

/// A stored channel inside an input, with bytes before and after it.
pub fn plane(random: &mut Random) -> Case {
    let (content, plane, code) = if random.one_in(2) {
        let (content, plane) = stream(random);
        (content, plane, 1)
    } else {
        let most = if random.one_in(30) { 20_000 } else { 200 };
        let length = random.index(most);
        (random.bytes(length), length as u64, 0)
    };
    let before = random.pick(&[0, 1, 40]);
    let after = random.pick(&[0, 0, 1, 30]);
    let mut input = random.bytes(before);
    input.extend_from_slice(&content);
    input.extend(random.bytes(after));
    let stored = Stored {
        start: before as u64,
        length: content.len() as u64,
        plane,
        code,
    };
    stored_plane(random, stored, input)
}

/// The plane reader's numbers, true or nearly so.
pub fn stored_plane(random: &mut Random, stored: Stored, input: Vec<u8>) -> Case {
    let destination = destination_near(random, stored.plane);
    let stored = if random.one_in(3) {
        stored
    } else {
        nearly(random, stored, input.len() as u64)
    };
    Case::Plane {
        stored,
        destination,
        input,
    }
}

/// Numbers near the true ones, at the input's end, at the limits, and wrapping.
fn nearly(random: &mut Random, stored: Stored, end: u64) -> Stored {
    let start = match random.below(16) {
        0 => end,
        1 => end + 1,
        2 => 0u64.wrapping_sub(stored.length),
        _ => around(random, stored.start),
    };
    let length = match random.below(16) {
        0 => end.wrapping_sub(start),
        1 => end.wrapping_sub(start).wrapping_add(1),
        2 => 0u64.wrapping_sub(start),
        _ => around(random, stored.length),
    };
    let plane = match random.below(16) {
        0 => 900_000_000,
        1 => 900_000_001,
        _ => around(random, stored.plane),
    };
    let code = if random.one_in(8) {
        random.pick(&CODES)
    } else {
        stored.code
    };
    Stored {
        start,
        length,
        plane,
        code,
    }
}

/// The systematic cases: every number of the plane reader at 0, off by one and huge, so that the
/// order of its refusals shows.
pub fn all(cases: &mut Vec<Case>) {
    let starts = [0, 2, 3, 6, 7, 1 << 32, 1 << 63, u64::MAX];
    let lengths = [0, 3, 4, 5, (1 << 32) + 4, 1 << 63, u64::MAX - 1, u64::MAX];
    let planes = [0, 3, 4, 900_000_000, 900_000_001, 1 << 32, u64::MAX];
    let input = [1, 9, 2, 131, 5, 0, 4];
    for &start in &starts {
        for (place, &length) in lengths.iter().enumerate() {
            for (turn, &plane) in planes.iter().enumerate() {
                for &code in &[0, 1, 2, u32::MAX] {
                    let destination = [4, 3, 5, 0][(turn + place + code as usize % 2) % 4];
                    let stored = Stored {
                        start,
                        length,
                        plane,
                        code,
                    };
                    let input = input.to_vec();
                    cases.push(Case::Plane {
                        stored,
                        destination,
                        input,
                    });
                }
            }
        }
    }
}
