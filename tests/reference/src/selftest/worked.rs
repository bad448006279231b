//! Document 01's worked values, its listing, and the sample files.

use super::{unpacked, Checks};
use crate::psp::canvas::place;
use crate::psp::listing::list;
use crate::psp::planes::{packed_form, PlaneAnswer};
use crate::psp::program::listing_text;
use crate::psp::rectangle::{padded_row, Rectangle};
use crate::psp::views::layer_name;
use crate::samples;

pub fn all(checks: &mut Checks) {
    good_streams(checks);
    bad_streams(checks);
    other_values(checks);
    listing(checks);
    sample_files(checks);
    file_order(checks);
}

fn good_streams(checks: &mut Checks) {
    let good: [(&[u8], &[u8]); 3] = [
        (&[0x83, 0x41], &[0x41, 0x41, 0x41]),
        (&[0x00, 0x81, 0x07], &[0x07]),
        (&[], &[]),
    ];
    for (stream, plane) in good {
        let (answer, destination) = unpacked(stream, plane.len() as u64);
        let expected = PlaneAnswer {
            number: 0,
            place: stream.len() as u64,
            bytes: plane.len() as u64,
        };
        checks.equal("a good stream", answer, expected);
        let mut after = plane.to_vec();
        after.extend_from_slice(&[0xEE, 0xEE]);
        checks.equal("its plane", destination, after);
    }
}

fn bad_streams(checks: &mut Checks) {
    let bad: [(&[u8], u64, u32, u64); 5] = [
        (&[0x81, 0x07, 0x00], 1, 23, 2),
        (&[0x83, 0x41], 2, 23, 0),
        (&[0x02, 0x41], 2, 22, 0),
        (&[0x80, 0x41], 1, 21, 0),
        (&[], 1, 22, 0),
    ];
    for (stream, plane, number, place) in bad {
        let (answer, destination) = unpacked(stream, plane);
        let expected = PlaneAnswer {
            number,
            place,
            bytes: 0,
        };
        checks.equal("a bad stream", answer, expected);
        let untouched = destination.iter().all(|&byte| byte == 0xEE);
        checks.that("nothing written", untouched);
    }
}

fn other_values(checks: &mut Checks) {
    checks.equal("a pair", packed_form(&[0x41, 0x41]), vec![2, 0x41, 0x41]);
    let packed = packed_form(&[0x41, 0x42, 0x42, 0x42]);
    checks.equal("a literal and a run", packed, vec![1, 0x41, 0x83, 0x42]);
    let rows = (padded_row(32, 1), padded_row(33, 1));
    checks.equal("rows at 1 bit", rows, (4, 8));
    let mut canvas = [0xEE; 6];
    let saved = Rectangle::new(-1, 1, 1, 2);
    let expected = (0, [0xEE, 0xEE, 0xEE, 0x11, 0xEE, 0xEE]);
    let number = place(3, 2, &mut canvas, saved, &[0x10, 0x11, 0, 0], 4);
    checks.equal("placing", (number, canvas), expected);
    canvas = [0xEE; 6];
    let number = place(3, 2, &mut canvas, saved, &[0x10, 0x11], 2);
    checks.equal("placing without padding", (number, canvas), expected);
}

fn listing(checks: &mut Checks) {
    let file = samples::grey521().bytes();
    let entries = "0 image 0 36 52\n1 bank 0 88 14\n2 layer 1 102 389 0\n";
    let channel = "3 channel 2 491 30 0 0 0 517 4 1 1 4 4\n";
    let whole = format!("answer 0 place 521 entries 4\n{}{}", entries, channel);
    checks.equal("the file of 521 bytes", listing_text(&file), whole);
    let cut = format!("answer 2 place 517 entries 3\n{}", entries);
    checks.equal("cut to 520", listing_text(&file[..520]), cut);
    let long = listing_text(&[0; 65_537]);
    let refused = "answer 1 place 0 entries 0\n".to_string();
    checks.equal("over 65,536 bytes", long, refused);
}

/// Every sample is accepted, and its entries own all its bytes.
fn sample_files(checks: &mut Checks) {
    for name in samples::NAMES {
        let picture = samples::sample(name);
        let input = picture.map(|picture| picture.bytes()).unwrap_or_default();
        let listing = list(&input, 512);
        let answer = (listing.number, listing.place);
        checks.equal(name, answer, (0, input.len() as u64));
        let owned: u32 = listing.entries.iter().map(|entry| entry.bytes_owned).sum();
        checks.equal("36 and all bytes owned", 36 + owned as usize, input.len());
    }
}

/// Layers stand as the file has them, whatever their names.
fn file_order(checks: &mut Checks) {
    let eleven = samples::layers11().bytes();
    let names: Vec<&[u8]> = (0..11)
        .filter_map(|k| layer_name(&eleven, 512, k).ok())
        .map(|(start, length)| &eleven[start as usize..][..length as usize])
        .collect();
    let first: [&[u8]; 3] = [b"Layer 2", b"Layer 10", b"Layer 1"];
    checks.equal("the file's order", &names[..3], &first[..]);
    let entries = list(&eleven, 512).entries;
    let layers = entries.iter().filter(|entry| entry.id == 4).count();
    checks.equal("eleven layers", (names.len(), layers), (11, 11));
}
