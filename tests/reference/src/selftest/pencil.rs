//! Checks of the listing without a table, request (x): of document 01's file by hand,
//! and beside the table for every entry and room.

use super::Checks;
use crate::answers::asked;
use crate::case::Case;
use crate::cases::{known, many};
use crate::library::Reference;
use crate::psp::listing::{list, Listing};
use crate::psp::pencil::{entry_at, Asked};
use crate::samples;

pub fn all(checks: &mut Checks, compared: &[Case]) {
    worked(checks);
    for name in samples::NAMES {
        let sample = samples::sample(name);
        let whole = sample.map(|picture| picture.bytes()).unwrap_or_default();
        every_room(checks, &whole);
        nothing_behind(checks, &whole);
    }
    for file in known::files() {
        every_room(checks, &file.input);
    }
    for case in compared {
        if let Case::Listing { room, input } = case {
            every_entry(checks, input, *room as usize);
        }
    }
    many_blocks(checks);
}

/// The entries of document 01's file, each with its place.
const GREY521: [(u64, &str); 4] = [
    (36, "Q 1 0 0 0 36 52 0 0 0 0 0 0 0 0 0"),
    (88, "Q 1 3 0 0 88 14 0 0 0 0 0 0 0 0 0"),
    (102, "Q 1 4 0 1 102 389 0 0 0 0 0 0 0 0 0"),
    (491, "Q 1 5 0 2 491 30 0 0 0 517 4 1 1 4 4"),
];

/// That file, and the same cut to 520 bytes.
fn worked(checks: &mut Checks) {
    let whole = samples::grey521().bytes();
    let cut = &whole[..520];
    let mut line = |name, input, room, k, expected: &str| {
        let line = asked(&Reference, room, k, input).line;
        checks.equal(name, &line[..], expected);
    };
    for (k, (place, entry)) in GREY521.into_iter().enumerate() {
        line("an entry", &whole, 512, k, entry);
        line("the last of a room", &whole, k + 1, k, entry);
        let full = format!("Q 0 12 {} {}", place, k);
        line("no room for it", &whole, k, k, &full);
        line("far past the room", &whole, k, usize::MAX, &full);
    }
    line("one past the last", &whole, 512, 4, "Q 0 0 521 4");
    line("far past it", &whole, usize::MAX, usize::MAX, "Q 0 0 521 4");
    line("before the cut", cut, 512, 2, GREY521[2].1);
    line("at the cut", cut, 512, 3, "Q 0 2 517 3");
    line("presence before room", cut, 3, 3, "Q 0 2 517 3");
}

/// What a listing says of entry k.
fn of_table(listing: &Listing, k: usize) -> Asked {
    match listing.entries.get(k) {
        Some(entry) => Asked::Found(*entry),
        None => Asked::Final {
            number: listing.number,
            place: listing.place,
            count: listing.entries.len() as u64,
        },
    }
}

/// Every entry, and two past the last.
fn every_entry(checks: &mut Checks, input: &[u8], room: usize) {
    let listing = list(input, room);
    for k in 0..listing.entries.len() + 2 {
        let got = entry_at(input, room, k);
        checks.equal("an entry of the table", got, of_table(&listing, k));
    }
}

/// In rooms from none to more than enough.
fn every_room(checks: &mut Checks, input: &[u8]) {
    let count = list(input, usize::MAX).entries.len();
    for room in (0..count + 3).chain([usize::MAX]) {
        every_entry(checks, input, room);
    }
}

/// No byte behind those that an entry owns is looked at.
fn nothing_behind(checks: &mut Checks, whole: &[u8]) {
    for (k, entry) in list(whole, usize::MAX).entries.iter().enumerate() {
        let end = (entry.header_place + entry.bytes_owned) as usize;
        let got = entry_at(&whole[..end], usize::MAX, k);
        checks.equal("an entry at the end", got, Asked::Found(*entry));
    }
}

/// The last entry of very many, and one past it.
fn many_blocks(checks: &mut Checks) {
    let lasts = [
        "Q 1 12 1 0 4194277 14 0 0 0 4194291 0 0 0 0 0",
        "Q 1 12 1 1 4194277 14 0 0 0 4194291 0 0 0 0 0",
        "Q 1 12 1 2 4194277 14 0 0 0 4194291 0 0 0 0 0",
        "Q 1 5 0 2 4194003 26 12630 4 0 4194029 0 0 0 0 0",
    ];
    let ends = [
        "Q 0 0 4194291 299559",
        "Q 0 2 4194291 299559",
        "Q 0 0 4194291 299559",
        "Q 0 0 4194029 25267",
    ];
    for ((input, last), end) in many::inputs().iter().zip(lasts).zip(ends) {
        let count = list(input, usize::MAX).entries.len();
        let line = |k| asked(&Reference, usize::MAX, k, input).line;
        checks.equal("the last of many", &line(count - 1)[..], last);
        checks.equal("one past it", &line(count)[..], end);
    }
}
