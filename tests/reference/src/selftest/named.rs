//! Checks of the places that answer 8 gives: over files with one or two wrong
//! fields, over all cases that are compared, and as a file arrives.

use super::Checks;
use crate::case::Case;
use crate::cases::beginnings;
use crate::cases::named::{files, Named, Spoiled};
use crate::cases::sweeps::listing;
use crate::psp::listing::list;

/// The fields that are judged, by the id of their block.
const FIELDS: [(u16, &[usize]); 6] = [
    (0, &[0, 4, 16, 17, 19, 21, 23, 27, 36]),
    (2, &[0]),
    (4, &[256, 257, 273, 294, 310, 329, 371, 373]),
    (5, &[4, 8, 10]),
    (6, &[0, 16, 32, 34]),
    (8, &[256, 272, 288, 290]),
];

pub fn all(checks: &mut Checks, compared: &[Case]) {
    let files = files();
    for file in &files {
        let name = format!("block {} with {:?}", file.id, file.faults);
        checks.listing(&name, &file.input, file.answer);
    }
    for end in [files.first(), files.last()].into_iter().flatten() {
        let case = listing(end.input.clone());
        checks.that("these files are compared", compared.contains(&case));
    }
    every_two(checks, &files);
    every_field(checks, compared);
    arriving(checks);
}

/// Every two fields of a chunk are wrong together, and so are a channel that is
/// not expected and its plane length.
fn every_two(checks: &mut Checks, files: &[Spoiled]) {
    let mut are_wrong = |id: u16, one: Named, other: Named| {
        let faults = [[one, other], [other, one]];
        let mut of_block = files.iter().filter(|file| file.id == id);
        let found = of_block.any(|file| faults.iter().any(|two| file.faults == two));
        checks.that(&format!("block {} with {:?}", id, faults[0]), found);
    };
    for (id, fields) in FIELDS {
        for (at, &one) in fields.iter().enumerate() {
            for &other in &fields[at + 1..] {
                are_wrong(id, Named::Field(one), Named::Field(other));
            }
        }
    }
    are_wrong(5, Named::Header(9), Named::Field(4));
}

/// Every field is named by a case, and nothing else is.
fn every_field(checks: &mut Checks, compared: &[Case]) {
    let mut named = Vec::new();
    for field in compared.iter().filter_map(named_by) {
        if !named.contains(&field) {
            named.push(field);
        }
    }
    let mut judged = 0;
    for (id, fields) in FIELDS {
        for &field in fields {
            let name = format!("field {} of block {}", field, id);
            checks.that(&name, named.contains(&(id, field)));
        }
        judged += fields.len();
    }
    checks.equal("fields named", named.len(), judged);
}

/// The block and the field that a listing refuses with 8. The block stands where
/// the bytes that the entries own end.
fn named_by(case: &Case) -> Option<(u16, usize)> {
    let (room, input) = match case {
        Case::Listing { room, input } => (*room as usize, input),
        _ => return None,
    };
    let listing = list(input, room);
    if listing.number != 8 {
        return None;
    }
    let owned: u32 = listing.entries.iter().map(|entry| entry.bytes_owned).sum();
    let header = 36 + owned as usize;
    let id = u16::from_le_bytes([input[header + 4], input[header + 5]]);
    Some((id, listing.place as usize - header - 14))
}

/// Files with wrong fields as they arrive: while the chunk is not whole it ends
/// too soon at its start; then the field is named, whatever follows.
fn arriving(checks: &mut Checks) {
    // The chunk's start and end, the field, and the entries before it.
    let chunks = [
        (50, 88, 77, 0),
        (571, 946, 844, 4),
        (597, 609, 607, 5),
        (1_020, 1_312, 1_292, 9),
    ];
    for (file, (start, end, field, count)) in beginnings::wrong_fields().iter().zip(chunks) {
        for length in start..=file.len() {
            let answer = if length < end {
                (2, start as u64, count)
            } else {
                (8, field, count)
            };
            checks.listing("a wrong field arrives", &file[..length], answer);
        }
    }
}
