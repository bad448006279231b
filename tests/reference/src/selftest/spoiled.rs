//! What is overwritten has no say: the listing is the same, and so are the
//! planes of the other channels. Every sort of part is met.

use std::ops::Range;

use super::Checks;
use crate::cases::spoiled::{silent, spoiled, stored, Spoiled};
use crate::psp::listing::{list, Entry, ALPHA_CHANNEL, CHANNEL, LAYER, PALETTE};
use crate::psp::planes::read_plane;
use crate::random::Random;

pub fn all(checks: &mut Checks) {
    let mut random = Random::new(14);
    let all: Vec<Spoiled> = (0..4_000).map(|_| spoiled(&mut random)).collect();
    for spoiled in &all {
        checks.that("no byte that has a say is another", only_silent(spoiled));
        checks.that("no say in the listing", same_listing(spoiled));
        for channel in spoiled.sound_channels() {
            checks.that("no say in a plane", same_plane(spoiled, &channel));
        }
    }
    for (name, met) in PARTS {
        let holds = |spoiled: &&Spoiled| has(spoiled, met);
        let times = all.iter().filter(holds).count();
        checks.that(name, times >= 100);
    }
    let refused = |spoiled: &&Spoiled| {
        let listing = list(&spoiled.before, spoiled.room as usize);
        !listing.accepted() && spoiled.now != spoiled.before
    };
    let times = all.iter().filter(refused).count();
    checks.that("overwritten, and refused", times >= 100);
}

type Met = fn(&Entry) -> bool;

const PARTS: [(&str, Met); 9] = [
    ("overwritten: a layer's colours", |e| is_channel(e, 0)),
    ("overwritten: a transparency mask", |e| is_channel(e, 1)),
    ("overwritten: a user mask", |e| is_channel(e, 2)),
    ("overwritten: a selection's channel", |e| is_channel(e, 3)),
    ("overwritten: an alpha channel's", |e| is_channel(e, 4)),
    ("overwritten: a layer's name", |e| is(e, LAYER)),
    ("overwritten: an alpha channel's name", |e| {
        is(e, ALPHA_CHANNEL)
    }),
    ("overwritten: a palette's colours", |e| is(e, PALETTE)),
    ("overwritten: a skipped block", |e| e.skipped == 1),
];

fn is(entry: &Entry, id: u16) -> bool {
    entry.skipped == 0 && entry.id == u32::from(id)
}

fn is_channel(entry: &Entry, bitmap: u32) -> bool {
    is(entry, CHANNEL) && entry.bitmap == bitmap
}

/// Whether such a part holds other bytes now.
fn has(spoiled: &Spoiled, met: Met) -> bool {
    let other = |part: Range<usize>| spoiled.now[part.clone()] != spoiled.before[part];
    let overwritten = |(entry, _): &(Entry, bool)| met(entry) && silent(entry).is_some_and(other);
    spoiled.entries.iter().any(overwritten)
}

fn only_silent(spoiled: &Spoiled) -> bool {
    let mut now = spoiled.now.clone();
    for (entry, overwritten) in &spoiled.entries {
        if let Some(part) = silent(entry).filter(|_| *overwritten) {
            now[part.clone()].copy_from_slice(&spoiled.before[part]);
        }
    }
    now == spoiled.before
}

fn same_listing(spoiled: &Spoiled) -> bool {
    let [now, before] =
        [&spoiled.now, &spoiled.before].map(|input| list(input, spoiled.room as usize));
    let answer = (now.number, now.place) == (before.number, before.place);
    answer && now.entries == before.entries
}

fn same_plane(spoiled: &Spoiled, channel: &Entry) -> bool {
    let [now, before] = [&spoiled.now, &spoiled.before].map(|input| {
        let stored = stored(input, channel);
        // A plane may be said to be very long.
        let mut plane = vec![0xEE; stored.plane.min(100_000) as usize + 2];
        let (start, length, code) = (stored.start, stored.length, stored.code);
        let answer = read_plane(input, start, length, stored.plane, code, &mut plane);
        (answer, plane)
    });
    now == before
}
