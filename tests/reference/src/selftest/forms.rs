//! Checks of planes with and without padding: which rows are found, and that
//! both forms of one artwork show the same pixels.

use super::Checks;
use crate::cases::forms;
use crate::library::{Library, Reference};
use crate::opened::{channel_entries, open, Channel, Opened};
use crate::psp::listing::list;
use crate::samples;
use crate::write::Form;

pub fn all(checks: &mut Checks) {
    for (depth, bitmap, sides, length, row) in ROWS {
        let name = format!("depth {} bitmap {} length {}", depth, bitmap, length);
        checks.equal(&name, listed_row(depth, bitmap, sides, length), row);
    }
    files_differ(checks);
    same_pixels(checks);
}

/// Depth, bitmap, sides of the rectangle and plane length of a channel; then
/// its row, or the number that refuses it.
type Row = (u16, u16, [i32; 2], u32, Result<u32, u32>);

const ROWS: [Row; 26] = [
    (8, 0, [3, 2], 8, Ok(4)),
    (8, 0, [3, 2], 6, Ok(3)),
    (8, 0, [3, 2], 7, Err(8)),
    (8, 0, [3, 2], 5, Err(8)),
    (8, 0, [3, 2], 9, Err(8)),
    (24, 0, [5, 2], 16, Ok(8)),
    (24, 0, [5, 2], 10, Ok(5)),
    (24, 0, [5, 2], 30, Err(8)),
    // Both forms give 12 bytes here, and the row is padded; then only one does.
    (8, 0, [4, 3], 12, Ok(4)),
    (8, 0, [3, 4], 12, Ok(3)),
    // No pixels: the padded row, and no bytes of it.
    (8, 0, [5, 0], 0, Ok(8)),
    (24, 1, [5, 0], 0, Ok(8)),
    (8, 0, [0, 5], 0, Ok(0)),
    // Pixels of less than a byte are padded, whatever the width.
    (1, 0, [3, 2], 8, Ok(4)),
    (1, 0, [3, 2], 6, Err(8)),
    (1, 0, [3, 2], 2, Err(8)),
    (4, 0, [9, 2], 16, Ok(8)),
    (4, 0, [9, 2], 18, Err(8)),
    (4, 0, [9, 2], 10, Err(8)),
    (4, 0, [5, 0], 0, Ok(4)),
    // Masks have a byte a pixel at every depth.
    (1, 1, [3, 2], 8, Ok(4)),
    (1, 1, [3, 2], 6, Ok(3)),
    (4, 2, [9, 2], 24, Ok(12)),
    (4, 2, [9, 2], 18, Ok(9)),
    (24, 2, [2, 3], 6, Ok(2)),
    (24, 2, [2, 3], 8, Err(8)),
];

/// The row of the first channel of a bitmap; the others are padded.
fn listed_row(depth: u16, bitmap: u16, sides: [i32; 2], length: u32) -> Result<u32, u32> {
    let picture = forms::picture(depth, false, sides, sides);
    let before = picture.image.colour_codes().count() - 1;
    let at = match bitmap {
        0 => 0,
        _ => before + usize::from(bitmap),
    };
    let input = forms::with_length(&picture, at, length).bytes();
    let listing = list(&input, 512);
    if !listing.accepted() {
        return Err(listing.number);
    }
    Ok(channel_entries(&input, 512)[at].row)
}

/// The two files are two, and every width and row in them is told apart.
fn files_differ(checks: &mut Checks) {
    let [padded, unpadded] = Form::BOTH.map(|form| samples::narrow_mug(form).bytes());
    checks.that("two files", padded != unpadded);
    let rests = |bitmap: u32| {
        let mut rests: Vec<u32> = opened(&unpadded)
            .channels
            .iter()
            .filter(|channel| channel.entry.bitmap == bitmap)
            .map(|channel| channel.entry.width % 4)
            .collect();
        rests.sort_unstable();
        rests.dedup();
        rests
    };
    checks.equal("widths of colours", rests(0), vec![1, 2, 3]);
    checks.equal("widths of transparency", rests(1), vec![1, 2, 3]);
    checks.equal("widths of user masks", rests(2), vec![1, 2, 3]);
    for (file, unpadded) in [(&padded, false), (&unpadded, true)] {
        let is_width = |channel: &Channel| channel.entry.row == channel.entry.width;
        let rows = opened(file).channels;
        checks.that("rows", rows.iter().all(|row| is_width(row) == unpadded));
    }
}

/// Every plane of every layer, placed on a canvas of the image's size.
fn same_pixels(checks: &mut Checks) {
    let [padded, unpadded] = Form::BOTH.map(|form| {
        let file = opened(&samples::narrow_mug(form).bytes());
        let placed = |channel: &Channel| placed(&file, channel);
        file.channels.iter().map(placed).collect::<Vec<_>>()
    });
    checks.equal("planes placed", (padded.len(), unpadded.len()), (42, 42));
    for (one, other) in padded.iter().zip(&unpadded) {
        checks.equal("placed", (one.0, other.0), (0, 0));
        checks.that("the same canvas", one.1 == other.1);
    }
    let is_shown = |(_, canvas): &(u32, Vec<u8>)| canvas.iter().any(|&pixel| pixel != 0);
    checks.that("a canvas with pixels", padded.iter().any(is_shown));
    let is_padding = |(_, canvas): &(u32, Vec<u8>)| canvas.contains(&0xEE);
    checks.that("no padding", !padded.iter().any(is_padding));
}

fn opened(input: &[u8]) -> Opened {
    open(input, 512).expect("a sample that is accepted")
}

/// The answer, and the canvas after it.
fn placed(file: &Opened, channel: &Channel) -> (u32, Vec<u8>) {
    let mut canvas = vec![0; file.pixels()];
    let number = Reference.place(&file.placing(channel), &mut canvas, &channel.plane);
    (number, canvas)
}
