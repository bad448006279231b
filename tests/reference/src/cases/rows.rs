//! Document 01's worked values, and each answer of the plane reader, the
//! packer and the placing on the smallest of inputs, with resolutions and
//! shared pixels beside them, the views of selections and alpha channels, and
//! saved tables. Each has the beginning of its line, worked out by hand, to which
//! the checks of this program hold the reference.

use super::saved;
use crate::case::{Case, Placing, Stored};
use crate::psp::rectangle::Rectangle;
use crate::samples;

pub fn all(cases: &mut Vec<Case>) {
    cases.extend(rows().into_iter().map(|(case, _)| case));
}

/// A case, and its line up to the hash, or with it.
pub fn rows() -> Vec<(Case, &'static str)> {
    let mut rows = Vec::new();
    streams(&mut rows);
    planes(&mut rows);
    packed(&mut rows);
    canvases(&mut rows);
    shared(&mut rows);
    dots(&mut rows);
    selections(&mut rows);
    alphas(&mut rows);
    tables(&mut rows);
    files(&mut rows);
    rows
}

type Rows = Vec<(Case, &'static str)>;

/// Bytes of the destinations.
const DESTINATION: u32 = 5;

/// Document 01's streams, and three more.
fn streams(rows: &mut Rows) {
    let mut push = |stream: &[u8], plane, line| {
        let case = Case::Packets {
            plane,
            destination: DESTINATION,
            stream: stream.to_vec(),
        };
        rows.push((case, line));
    };
    push(&[0x83, 0x41], 3, "U 0 2 3");
    push(&[0x00, 0x81, 0x07], 1, "U 0 3 1");
    push(&[0x81, 0x07, 0x00], 1, "U 23 2 0");
    push(&[0x83, 0x41], 2, "U 23 0 0");
    push(&[0x02, 0x41], 2, "U 22 0 0");
    push(&[0x80, 0x41], 1, "U 21 0 0");
    push(&[], 0, "U 0 0 0");
    push(&[], 1, "U 22 0 0");
    push(&[0x00], 0, "U 23 0 0");
    push(&[0x81, 0x07], 2, "U 22 2 0");
    push(&[0x86, 0x41], 6, "U 20 0 0");
}

/// Parts of one input: each answer of the plane reader, in its order of tests.
fn planes(rows: &mut Rows) {
    let mut push = |start, length, plane, code, line| {
        let case = Case::Plane {
            stored: Stored {
                start,
                length,
                plane,
                code,
            },
            destination: DESTINATION,
            input: vec![0xAA, 0x83, 0x41, 0x01, 0x42, 0x80],
        };
        rows.push((case, line));
    };
    push(1, 4, 4, 1, "P 0 4 4");
    push(3, 3, 3, 0, "P 0 3 3");
    push(6, 0, 0, 0, "P 0 0 0");
    push(1, 5, 5, 1, "P 21 4 0");
    push(1, 1, 3, 1, "P 22 0 0");
    push(1, 2, 4, 1, "P 22 2 0");
    push(1, 4, 3, 1, "P 23 2 0");
    push(1, 4, 2, 1, "P 23 0 0");
    push(0, 6, 6, 0, "P 20 0 0");
    push(3, 3, 4, 0, "P 25 0 0");
    push(9, 9, 900_000_001, 2, "P 24 0 0");
    push(9, 9, 900_000_001, 0, "P 26 0 0");
    push(9, 9, 900_000_000, 0, "P 27 0 0");
    push(0, 6, 900_000_000, 0, "P 20 0 0");
    push(6, 1, 9, 0, "P 27 0 0");
    push(u64::MAX, u64::MAX, 1, 1, "P 27 0 0");
}

/// Document 01's two planes, and 129 equal bytes, there and back.
fn packed(rows: &mut Rows) {
    let mut push = |plane: &[u8], line| {
        let case = Case::Pack {
            destination: DESTINATION,
            plane: plane.to_vec(),
        };
        rows.push((case, line));
    };
    push(&[0x41, 0x41], "K 0 3");
    push(&[0x41, 0x42, 0x42, 0x42], "K 0 4");
    push(&[], "K 0 0");
    push(&[1, 2, 3, 4, 5], "K 30 0");
    push(&[7; 129], "K 0 5");
    let back = Case::Packets {
        plane: 129,
        destination: 130,
        stream: vec![0xFF, 7, 2, 7, 7],
    };
    rows.push((back, "U 0 5 129"));
}

/// Document 01's row, the same without padding, and each refusal, in the order
/// of the tests.
fn canvases(rows: &mut Rows) {
    let mut push = |height, rectangle, row, plane: &[u8], line| {
        let case = Case::Canvas {
            placing: Placing {
                width: 3,
                height,
                rectangle,
                row,
            },
            canvas: vec![0xEE; 6],
            plane: plane.to_vec(),
        };
        rows.push((case, line));
    };
    let saved = Rectangle::new(-1, 1, 1, 2);
    let back = Rectangle::new(1, 1, -1, 2);
    let empty = Rectangle::new(0, 1, 2, 1);
    push(2, saved, 4, &[0x10, 0x11, 0, 0], "C 0");
    push(2, saved, 2, &[0x10, 0x11], "C 0");
    push(2, empty, 4, &[], "C 0");
    push(2, empty, 2, &[], "C 0");
    push(3, back, 3, &[], "C 40");
    push(2, back, 3, &[], "C 41");
    push(2, saved, 4, &[0x10, 0x11], "C 42");
    push(2, saved, 2, &[0x10, 0x11, 0, 0], "C 42");
    push(2, saved, 3, &[0x10, 0x11, 0], "C 42");
    push(2, empty, 3, &[], "C 42");
}

/// The pixels that rectangles share with one of 4 by 4.
fn shared(rows: &mut Rows) {
    let mut push = |other, line| {
        let one = Rectangle::new(0, 0, 4, 4);
        rows.push((Case::Intersection { one, other }, line));
    };
    push(Rectangle::new(-1, 1, 1, 2), "I 0 1 1 2");
    push(Rectangle::new(4, 0, 8, 4), "I 0 0 0 0");
    push(Rectangle::new(3, 3, 2, 2), "I 0 0 0 0");
    let all = Rectangle::new(i32::MIN, i32::MIN, i32::MAX, i32::MAX);
    push(all, "I 0 0 4 4");
}

/// The dots per centimetre, as bits.
fn dots(rows: &mut Rows) {
    let mut push = |bits, metric, line| rows.push((Case::Dots { bits, metric }, line));
    // 300, then 118.11, the least subnormal twice, -0, infinity and a NaN.
    push(4643985272004935680, 1, "D 1 4638011685934231778");
    push(4638011669311693783, 2, "D 1 4638011669311693783");
    push(1, 2, "D 1 1");
    push(1, 1, "D 1 0");
    push(1 << 63, 1, "D 0 0");
    push(0x7FF0_0000_0000_0000, 1, "D 0 0");
    push(0x7FF8_0000_0000_0000, 2, "D 0 0");
    push(4643985272004935680, 0, "D 0 0");
}

/// Bitmaps, channels, border and saved rectangle.
fn selections(rows: &mut Rows) {
    let mut push = |room, input, line| rows.push((Case::SelectionFacts { room, input }, line));
    let [alphas, early] = [samples::alphas(), samples::early()].map(|picture| picture.bytes());
    let cut = early[..early.len() - 1].to_vec();
    push(16, alphas.clone(), "S 0 1 1 0 0 6 4 1 1 4 3");
    push(15, alphas, "S 12 0 0 0 0 0 0 0 0 0 0");
    push(11, early, "S 0 1 1 -32768 -32768 32767 32767 -3 2 -1 4");
    push(11, cut, "S 2 0 0 0 0 0 0 0 0 0 0");
    let none = samples::grey521().bytes();
    push(4, none, "S 46 0 0 0 0 0 0 0 0 0 0");
}

/// The same and the hash of all 256 name bytes; of a name its part, the number
/// again, and its hash. The chunks stand at 709 and 1,072 in one file, at 118 and
/// 458 in the other.
fn alphas(rows: &mut Rows) {
    let mut push = |room, k, input: &[u8], facts, name| {
        let input = || input.to_vec();
        let [facts_input, name_input] = [input(), input()];
        let facts_case = Case::AlphaFacts {
            room,
            k,
            input: facts_input,
        };
        let name_case = Case::AlphaName {
            room,
            k,
            input: name_input,
        };
        rows.extend([(facts_case, facts), (name_case, name)]);
    };
    let [alphas, early] = [samples::alphas(), samples::early()].map(|picture| picture.bytes());
    push(
        16,
        0,
        &alphas,
        "A 0 1 1 -2 0 6 4 -1 1 4 3 3863725040",
        "M 0 709 7 0 3155172432",
    );
    push(
        16,
        1,
        &alphas,
        "A 0 1 1 3 1 3 4 3 1 3 4 1816453829",
        "M 0 1072 256 0 1816453829",
    );
    push(
        11,
        0,
        &early,
        "A 0 1 1 0 0 4 4 0 0 3 3 526110669",
        "M 0 118 4 0 2779556765",
    );
    push(
        11,
        1,
        &early,
        "A 0 1 1 1 1 1 1 100 -7 103 -7 3869364677",
        "M 0 458 0 0 2166136261",
    );
    push(
        16,
        2,
        &alphas,
        "A 47 0 0 0 0 0 0 0 0 0 0 3869364677",
        "M 47 0 0 47 2166136261",
    );
    push(
        15,
        2,
        &alphas,
        "A 12 0 0 0 0 0 0 0 0 0 0 3869364677",
        "M 12 0 0 12 2166136261",
    );
    push(
        16,
        u32::MAX,
        &alphas[..1_406],
        "A 2 0 0 0 0 0 0 0 0 0 0 3869364677",
        "M 2 0 0 2 2166136261",
    );
}

/// A table of one entry and one number more, and one of thirteen numbers. Then
/// the versions, which the hashes tell apart: a height of 30,000, sides of 4,096,
/// and large numbers that are no entry.
fn tables(rows: &mut Rows) {
    let mut push = |numbers, destination, line| {
        let table: Vec<u32> = (1..=numbers).collect();
        rows.push((saved::written(&table, destination), line));
    };
    push(15, 65, "W 0 65");
    push(15, 66, "W 0 65");
    push(15, 64, "W 73 0");
    push(13, 9, "W 0 9");
    push(13, 8, "W 73 0");
    push(0, 9, "W 0 9");
    push(0, 0, "W 73 0");
    let mut push = |table: &[u32], destination, line| {
        rows.push((saved::written(table, destination), line));
    };
    push(&LARGE_ENTRY, 65, "W 0 65 1395363058");
    push(&LARGE_ENTRY, 64, "W 73 0");
    let mut entry = LARGE_ENTRY;
    entry[11] = 4_096;
    push(&entry, 65, "W 0 65 3313261746");
    push(&[u32::MAX; 13], 9, "W 0 9 568259045");
}

/// The file of an entry of the numbers 1 to 14.
#[rustfmt::skip] // the head, then the entry
pub const SAVED: [u8; 65] = [
    0, 0, 0, 61, 1, 0, 0, 0, 1,
    0, 0, 0, 1, 0, 0, 0, 2, 0, 0, 0, 3, 0, 0, 0, 4, 0, 0, 0, 5, 0, 0, 0, 6, 0, 0, 0, 7,
    0, 0, 0, 8, 0, 0, 0, 9, 0, 0, 0, 10, 0, 0, 0, 11, 0, 0, 0, 12, 0, 0, 0, 13, 0, 0, 0, 14,
];

/// An entry with a height of 30,000, which makes its table one of version 2.
pub const LARGE_ENTRY: [u32; 14] = [1, 2, 3, 4, 5, 6, 7, 8, 9, 10, 4_096, 30_000, 13, 14];

/// Its file. 4,096 is 16 times 256, and 30,000 is 117 times 256 and 48.
#[rustfmt::skip] // the head, then the entry
pub const SAVED_LARGE: [u8; 65] = [
    0, 0, 0, 61, 2, 0, 0, 0, 1,
    0, 0, 0, 1, 0, 0, 0, 2, 0, 0, 0, 3, 0, 0, 0, 4, 0, 0, 0, 5, 0, 0, 0, 6, 0, 0, 0, 7,
    0, 0, 0, 8, 0, 0, 0, 9, 0, 0, 0, 10, 0, 0, 16, 0, 0, 0, 117, 48, 0, 0, 0, 13, 0, 0, 0, 14,
];

/// The file without a large side, as it is and with the bytes before its entry
/// changed, in rooms for one entry and for none; then the one with a large side,
/// and files without an entry. Each refusal, in the order of the tests.
fn files(rows: &mut Rows) {
    let mut push = |entry: &[u8; 65], head: [u8; 9], numbers, line| {
        let mut file = *entry;
        file[..9].copy_from_slice(&head);
        rows.push((saved::read(&file, numbers), line));
    };
    push(&SAVED, [0, 0, 0, 61, 1, 0, 0, 0, 1], 14, "R 0 1");
    push(&SAVED, [0, 0, 0, 61, 1, 0, 0, 0, 1], 27, "R 0 1");
    push(&SAVED, [0, 0, 0, 61, 1, 0, 0, 0, 1], 13, "R 73 0");
    push(&SAVED, [0, 0, 0, 61, 2, 0, 0, 0, 1], 13, "R 74 0");
    push(&SAVED, [0, 0, 0, 61, 2, 0, 0, 0, 1], 14, "R 74 0");
    push(&SAVED, [0, 0, 0, 61, 1, 0, 0, 0, 2], 13, "R 72 0");
    push(&SAVED, [0, 0, 0, 61, 2, 0, 0, 0, 2], 13, "R 72 0");
    push(&SAVED, [0, 0, 0, 61, 1, 32, 0, 0, 1], 14, "R 72 0");
    push(&SAVED, [0, 0, 0, 61, 3, 0, 0, 0, 2], 13, "R 71 0");
    push(&SAVED, [0, 0, 0, 61, 0, 0, 0, 0, 1], 14, "R 71 0");
    push(&SAVED, [0, 0, 0, 65, 3, 0, 0, 0, 2], 13, "R 70 0");
    push(&SAVED, [61, 0, 0, 0, 1, 0, 0, 0, 1], 14, "R 70 0");
    push(&SAVED, [0, 0, 0, 5, 1, 0, 0, 0, 0], 14, "R 70 0");
    push(&SAVED_LARGE, [0, 0, 0, 61, 2, 0, 0, 0, 1], 14, "R 0 1");
    push(&SAVED_LARGE, [0, 0, 0, 61, 2, 0, 0, 0, 1], 13, "R 73 0");
    push(&SAVED_LARGE, [0, 0, 0, 61, 1, 0, 0, 0, 1], 13, "R 74 0");
    push(&SAVED_LARGE, [0, 0, 0, 61, 1, 0, 0, 0, 0], 13, "R 72 0");
    push(&SAVED_LARGE, [0, 0, 0, 61, 3, 0, 0, 0, 0], 13, "R 71 0");
    push(&SAVED_LARGE, [0, 0, 0, 60, 3, 0, 0, 0, 0], 13, "R 70 0");
    let mut short = |file: &[u8], line| rows.push((saved::read(file, 0), line));
    short(&[0, 0, 0, 5, 1, 0, 0, 0, 0], "R 0 0");
    short(&[0, 0, 0, 5, 2, 0, 0, 0, 0], "R 74 0");
    short(&[0, 0, 0, 5, 2, 0, 0, 0, 1], "R 72 0");
    short(&[0, 0, 0, 5, 1, 0, 0, 0, 1], "R 72 0");
    short(&[0, 0, 0, 6, 1, 0, 0, 0, 0, 0], "R 72 0");
    short(&[0, 0, 0, 4, 1, 0, 0, 0], "R 70 0");
    short(&[], "R 70 0");
}
