//! Checks of cases whose answers are worked out by hand, of every beginning of a
//! file against the whole, and of many blocks.

use super::Checks;
use crate::answers::answer;
use crate::cases::{beginnings, known, many, rows};
use crate::library::Reference;
use crate::psp::listing::list;
use crate::samples;

pub fn all(checks: &mut Checks) {
    for file in known::files() {
        checks.listing(file.name, &file.input, file.answer);
    }
    for (case, beginning) in rows::rows() {
        let line = answer(&Reference, &case).line + " ";
        checks.that(beginning, line.starts_with(&format!("{} ", beginning)));
    }
    whole_files(checks);
    for (room, whole) in beginnings::files() {
        growing(checks, room as usize, &whole);
    }
    for name in samples::NAMES {
        let sample = samples::sample(name);
        let whole = sample.map(|picture| picture.bytes()).unwrap_or_default();
        growing(checks, 512, &whole);
    }
    many_blocks(checks);
}

/// What the beginnings lead to.
fn whole_files(checks: &mut Checks) {
    let answers = beginnings::files().map(|(room, whole)| {
        let listing = list(&whole, room as usize);
        (listing.number, listing.place, listing.entries.len())
    });
    let expected = [
        (0, 703, 9),
        (12, 128, 3),
        (9, 557, 4),
        (8, 77, 0),
        (8, 844, 4),
        (8, 607, 5),
        (8, 1_292, 9),
    ];
    checks.equal("files that arrive", answers, expected);
}

/// More input never takes anything back: the entries of a beginning stand in
/// the whole's table, and a refusal that more input cannot change is the
/// whole's.
fn growing(checks: &mut Checks, room: usize, whole: &[u8]) {
    let end = list(whole, room);
    for length in 0..whole.len() {
        let part = list(&whole[..length], room);
        let entries = &part.entries;
        checks.that("entries stand", end.entries.starts_with(entries));
        if !matches!(part.number, 0 | 2 | 12) {
            let settled = (part.number, part.place, entries.len());
            let after = (end.number, end.place, end.entries.len());
            checks.equal("a refusal stays", settled, after);
        }
    }
}

fn many_blocks(checks: &mut Checks) {
    let lines: Vec<String> = many::cases()
        .iter()
        .map(|case| answer(&Reference, case).line)
        .collect();
    let expected = [
        "T 0 4194291 299559",
        "T 2 4194291 299559",
        "T 0 4194291 299559",
        "T 0 4194029 25267",
    ];
    checks.equal("many blocks", lines, expected.map(String::from).to_vec());
}
