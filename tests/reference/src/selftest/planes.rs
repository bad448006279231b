//! Checks of planes, packets, the packer, the canvas and intersections.

use super::{unpacked, Checks};
use crate::psp::canvas::place;
use crate::psp::planes::{pack, packed_form, read_plane};
use crate::psp::rectangle::{intersection, Rectangle};

pub fn all(checks: &mut Checks) {
    full_planes(checks);
    plane_reader(checks);
    packer(checks);
    placing(checks);
    intersections(checks);
}

/// Planes of nothing; and 22 before 23 in one packet.
fn full_planes(checks: &mut Checks) {
    for stream in [&[0u8][..], &[128], &[129, 1]].iter() {
        checks.equal("a full plane", unpacked(stream, 0).0.number, 23);
    }
    checks.equal("missing before too much", unpacked(&[5, 1], 2).0.number, 22);
    let end = unpacked(&[1, 7], 2).0;
    checks.equal("the stream's end", (end.number, end.place), (22, 2));
}

/// An empty part at the end, and the order of the refusals.
fn plane_reader(checks: &mut Checks) {
    let input = [1, 2, 3, 4];
    let reading = |start: u64, stored: u64, plane: u64, code: u32, room: usize| {
        let mut destination = vec![0; room];
        let answer = read_plane(&input, start, stored, plane, code, &mut destination);
        (answer.number, answer.place, answer.bytes)
    };
    checks.equal(
        "an empty part at the end",
        reading(4, 0, 0, 0, 0),
        (0, 0, 0),
    );
    checks.equal("past the end", reading(5, 0, 0, 0, 0), (27, 0, 0));
    checks.equal("a wrapping sum", reading(u64::MAX, 2, 1, 0, 9), (27, 0, 0));
    checks.equal("a raw plane", reading(1, 3, 3, 0, 9), (0, 3, 3));
    checks.equal("24 first", reading(9, 9, u64::MAX, 2, 0), (24, 0, 0));
    checks.equal("26 next", reading(9, 9, 900_000_001, 0, 0), (26, 0, 0));
    checks.equal("27 next", reading(9, 9, 900_000_000, 0, 0), (27, 0, 0));
    checks.equal("20 next", reading(0, 4, 3, 0, 2), (20, 0, 0));
    checks.equal("25 next", reading(0, 4, 3, 0, 3), (25, 0, 0));
    checks.equal("20 for run lengths", reading(0, 4, 3, 1, 2), (20, 0, 0));
}

/// Runs past 127, and the bound on the packed length.
fn packer(checks: &mut Checks) {
    checks.equal("129 equal", packed_form(&[9; 129]), vec![255, 9, 2, 9, 9]);
    let mut plane = vec![9; 129];
    plane.extend_from_slice(&[1, 2]);
    checks.equal(
        "and literals",
        packed_form(&plane),
        vec![255, 9, 4, 9, 9, 1, 2],
    );
    checks.equal("130 equal", packed_form(&[9; 130]), vec![255, 9, 131, 9]);
    checks.equal("nothing", pack(&[], &mut []), (0, 0));
    checks.equal("no room", pack(&[1], &mut [0]), (30, 0));
    let literals: Vec<u8> = (0..=254).collect();
    checks.equal("literals only", packed_form(&literals).len(), 255 + 3);
    for length in 0..400usize {
        for step in 1..5 {
            let plane: Vec<u8> = (0..length).map(|at| (at / step) as u8).collect();
            let packed = packed_form(&plane);
            checks.that("its bound", packed.len() <= length + (length + 126) / 127);
            let (answer, back) = unpacked(&packed, length as u64);
            checks.that(
                "and back",
                answer.number == 0 && back[..length] == plane[..],
            );
        }
    }
}

/// The order of the refusals, and off the canvas.
fn placing(checks: &mut Checks) {
    let mut canvas = [0xEE; 4];
    let off = Rectangle::new(32_766, -9, 32_767, -8);
    let wide = Rectangle::new(0, 0, 30_001, 0);
    let widest = Rectangle::new(0, 0, 30_000, 0);
    let one = Rectangle::new(0, 0, 1, 1);
    let empty = Rectangle::new(0, 0, 2, 0);
    let mut check = |name, height, saved, plane: &[u8], row, number| {
        let answer = place(2, height, &mut canvas, saved, plane, row);
        checks.equal(name, answer, number);
    };
    check("off the canvas", 2, off, &[0; 4], 4, 0);
    check("off it without padding", 2, off, &[0], 1, 0);
    check("nothing", 2, empty, &[], 2, 0);
    check("nothing, padded", 2, empty, &[], 4, 0);
    check("canvas first", 3, wide, &[0], 9, 40);
    check("too wide", 2, wide, &[], 9, 41);
    check("as wide as can be", 2, widest, &[], 9, 42);
    check("canvas too high", 30_001, one, &[0; 4], 4, 40);
    check("plane length", 2, one, &[0], 4, 42);
    check("plane length without padding", 2, one, &[0; 4], 1, 42);
    check("a row of no form", 2, one, &[0; 2], 2, 42);
    check("nothing with a row of no form", 2, empty, &[], 3, 42);
    checks.equal("untouched", canvas, [0xEE; 4]);
}

/// Any corners; empty ones share nothing.
fn intersections(checks: &mut Checks) {
    let all = Rectangle::new(i32::MIN, i32::MIN, i32::MAX, i32::MAX);
    let far = Rectangle::new(i32::MIN, 5, i32::MAX, 6);
    checks.equal("any corners", intersection(all, far), far);
    let inverted = Rectangle::new(3, 0, 1, 5);
    checks.equal(
        "out of order",
        intersection(all, inverted),
        Rectangle::default(),
    );
    let empty = Rectangle::new(3, 0, 3, 5);
    checks.equal("empty", intersection(all, empty), Rectangle::default());
}
