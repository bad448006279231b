//! Cases that no payload could hold: inputs of 64 MiB, planes of 4,096 by 4,096
//! pixels of several sorts, placed in both forms, and tables of a million entries,
//! saved and read back. Of inputs and planes over their limits the refusal alone:
//! `sheets` has what is accepted there.

use reference::case::{Case, Placing, Stored};
use reference::cases::{every_listing, saved};
use reference::psp::listing::ENTRY_NUMBERS;
use reference::psp::planes::packed_form;
use reference::psp::rectangle::Rectangle;
use reference::psp::saved::saved_form;
use reference::psp::{INPUT_LIMIT, PLANE_LIMIT};
use reference::random::Random;
use reference::samples;
use reference::write::{Form, Node};

const SIDE: i32 = 4_096;
const PLANE: usize = (SIDE * SIDE) as usize;
const INPUT: usize = 64 << 20;

/// Bytes past what a call writes.
const REST: u32 = 9;

/// Gives the cases one after another: each is large.
pub fn each(mut give: impl FnMut(Case)) {
    inputs(&mut give);
    for plane in [raw, flat, photographic, alternating, paired] {
        planes(&plane(PLANE), &mut give);
    }
    over(&mut give);
    tables(&mut give);
}

/// Accepted files about as long as they once could be, with two layers, a
/// selection and two alpha channels: the last block, which is skipped, fills
/// them. And nothing but zeros.
fn inputs(give: &mut impl FnMut(Case)) {
    for length in [INPUT - 1, INPUT, INPUT + 1] {
        let mut tree = samples::skips().tree();
        tree.blocks
            .extend(samples::alphas().tree().blocks.drain(2..));
        let filled = length - tree.bytes().len() - 14;
        tree.blocks.push(Node::new(12, 0, vec![1; filled]));
        let room = 64;
        for case in every_listing(room, 1, &tree.bytes()) {
            give(case);
        }
        give(Case::Listing {
            room,
            input: vec![0; length],
        });
    }
}

/// A plane packed, unpacked, read raw and packed, and placed.
fn planes(plane: &[u8], give: &mut impl FnMut(Case)) {
    let packed = packed_form(plane);
    for (more, less) in [(REST, 0), (0, 1)] {
        give(Case::Pack {
            destination: packed.len() as u32 + more - less,
            plane: plane.to_vec(),
        });
        give(Case::Packets {
            plane: plane.len() as u64,
            destination: plane.len() as u32 + more - less,
            stream: packed.clone(),
        });
    }
    stored(plane, 0, plane.len(), give);
    stored(&packed, 1, plane.len(), give);
    for shift in [0, 1, -1_000, 4_095, 4_096] {
        give(placed(plane, SIDE, Form::Padded, shift));
        for form in Form::BOTH {
            give(placed(plane, SIDE - 1, form, shift));
        }
    }
}

/// A stored channel behind three other bytes; the same with a byte missing.
fn stored(content: &[u8], code: u32, plane: usize, give: &mut impl FnMut(Case)) {
    let mut input = vec![5; 3];
    input.extend_from_slice(content);
    for less in 0..2 {
        let stored = Stored {
            start: 3,
            length: content.len() as u64 - less,
            plane: plane as u64,
            code,
        };
        give(Case::Plane {
            stored,
            destination: plane as u32 + REST,
            input: input.clone(),
        });
    }
}

/// As many rows of the plane as it has, on a canvas of its size, moved to the
/// right and up.
fn placed(plane: &[u8], width: i32, form: Form, shift: i32) -> Case {
    let row = form.row(width as u64, 8) as usize;
    Case::Canvas {
        placing: Placing {
            width: SIDE as u32,
            height: SIDE as u32,
            rectangle: Rectangle::new(shift, -shift, width + shift, SIDE - shift),
            row: row as u32,
        },
        canvas: vec![0xEE; PLANE],
        plane: plane[..row * SIDE as usize].to_vec(),
    }
}

/// One byte over the limits. Each is refused before it is looked at, so nothing
/// has to hold these zeros.
fn over(give: &mut impl FnMut(Case)) {
    give(Case::Listing {
        room: 64,
        input: vec![0; INPUT_LIMIT as usize + 1],
    });
    for destination in [0, REST] {
        give(Case::Pack {
            destination,
            plane: vec![0; PLANE_LIMIT as usize + 1],
        });
    }
}

/// A table of each version with numbers left over, and its file, each with more
/// room than it needs and with too little.
fn tables(give: &mut impl FnMut(Case)) {
    const ENTRIES: usize = 1_000_000;
    let numbers = ENTRIES * ENTRY_NUMBERS;
    for table in [saved::fixed, saved::fixed_large] {
        let table = table(ENTRIES, ENTRY_NUMBERS - 1);
        let file = saved_form(&table);
        for (more, less) in [(REST as usize, 0), (0, 1)] {
            give(saved::written(&table, file.len() + more - less));
            give(saved::read(&file, numbers + more - less));
        }
    }
}

fn raw(length: usize) -> Vec<u8> {
    Random::new(1).bytes(length)
}

fn flat(length: usize) -> Vec<u8> {
    vec![200; length]
}

/// Slopes with a little noise, and a flat sky.
fn photographic(length: usize) -> Vec<u8> {
    let mut random = Random::new(2);
    let pixel = |at: usize| {
        let (x, y) = (at % SIDE as usize, at / SIDE as usize);
        let slope = (x / 9 + y / 5) as u8;
        if y < 900 {
            230
        } else {
            slope.wrapping_add(random.byte() % 3)
        }
    };
    (0..length).map(pixel).collect()
}

/// No two neighbours are equal: literals only.
fn alternating(length: usize) -> Vec<u8> {
    (0..length).map(|at| (at % 2) as u8).collect()
}

/// Pairs, which stay literals.
fn paired(length: usize) -> Vec<u8> {
    (0..length).map(|at| (at / 2) as u8).collect()
}
