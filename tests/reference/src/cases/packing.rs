//! Planes for the packer, with every sort of run around its limits.

use super::streams::destination_near;
use crate::case::Case;
use crate::psp::planes::packed_form;
use crate::random::Random;

/// Lengths of runs around every limit of the packets.
const RUNS: [usize; 19] = [
    1, 2, 3, 4, 5, 63, 64, 125, 126, 127, 128, 129, 130, 253, 254, 255, 256, 257, 381,
];

/// A plane that packs with every sort of packet.
fn plane_of_runs(random: &mut Random) -> Vec<u8> {
    let mut plane = Vec::new();
    let colours = random.pick(&[2, 3, 250]);
    let most = random.pick(&[1, 4, 12, 40]);
    for _ in 0..random.between(0, most) {
        let short = random.between(1, 4) as usize;
        let limit = random.pick(&RUNS);
        let byte = random.below(colours) as u8;
        if random.one_in(3) {
            // No run at all, and no pair either.
            plane.extend(unequal(limit));
        } else {
            let run = random.pick(&[1, 1, 1, 2, 2, 3, short, limit, limit]);
            plane.extend(vec![byte; run]);
        }
    }
    plane
}

pub fn pack(random: &mut Random) -> Case {
    let plane = if random.one_in(60) {
        let length = random.pick(&[16_129, 19_000, 20_000, 40_000, 60_000]);
        if random.one_in(2) {
            vec![random.byte(); length]
        } else {
            let step = random.between(1, 5) as usize;
            (0..length).map(|at| (at / step) as u8).collect()
        }
    } else {
        plane_of_runs(random)
    };
    let destination = destination_near(random, packed_form(&plane).len() as u64);
    Case::Pack { destination, plane }
}

/// The systematic cases: runs of every length around the limits, alone, in pairs, and with literals
/// before and after; destinations one short, exact and longer.
pub fn all(cases: &mut Vec<Case>) {
    let mut planes: Vec<Vec<u8>> = vec![Vec::new()];
    for &first in &RUNS {
        planes.push(vec![7; first]);
        // Nothing equal: literals of that length, whole and before a run.
        let literals = unequal(first);
        planes.push(literals.clone());
        // Pairs stay literals.
        planes.push((0..first).map(|at| (at / 2) as u8).collect());
        for &second in &RUNS {
            let mut plane = vec![7; first];
            plane.extend(vec![8; second]);
            planes.push(plane.clone());
            plane.extend_from_slice(&[9, 9, 7]);
            planes.push(plane);
            let mut plane = literals.clone();
            plane.extend(vec![255; second]);
            plane.push(1);
            planes.push(plane);
        }
    }
    for plane in planes {
        let length = packed_form(&plane).len() as u32;
        push(
            cases,
            &plane,
            [length.saturating_sub(1), length, length + 3],
        );
    }
    starts(cases);
}

/// Two to four equal bytes at every place of a packet's beginning, at the end and one before it, and
/// equal bytes before another; destinations one short, exact, and about the longest form that so many
/// bytes can have.
fn starts(cases: &mut Vec<Case>) {
    let mut planes = Vec::new();
    for before in 0..=44 {
        for equal in 2..=4 {
            let mut plane = unequal(before);
            plane.extend(vec![255; equal]);
            planes.push(plane.clone());
            plane.push(1);
            planes.push(plane);
        }
        let mut plane = vec![7; before];
        plane.push(8);
        planes.push(plane);
    }
    for plane in planes {
        let length = packed_form(&plane).len() as u32;
        let most = (plane.len() + (plane.len() + 126) / 127) as u32;
        push(cases, &plane, [length - 1, length, most - 1, most]);
    }
}

fn push<const COUNT: usize>(cases: &mut Vec<Case>, plane: &[u8], destinations: [u32; COUNT]) {
    for destination in destinations {
        cases.push(Case::Pack {
            destination,
            plane: plane.to_vec(),
        });
    }
}

/// So many bytes of which no two beside each other are equal.
fn unequal(length: usize) -> Vec<u8> {
    (0..length).map(|at| (at % 251) as u8).collect()
}
