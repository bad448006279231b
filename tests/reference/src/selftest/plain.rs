//! Checks of the files of plain blocks: runs of skipped blocks stand in every
//! sort of parent and layers have their channels in every order, all of which is
//! accepted; and changing them gives every answer that it can.

use super::Checks;
use crate::case::Case;
use crate::cases::plain::{self, files, ROOM};
use crate::psp::listing::{list, Entry, BANK, CHANNEL, FIRST_UNKNOWN, LAYER};
use crate::write::{InLayer, Layer, Picture, Written};

pub fn all(checks: &mut Checks, compared: &[Case]) {
    for (name, picture) in files::bases() {
        accepted(checks, name, &picture);
    }
    for picture in files::layers() {
        accepted(checks, "a layer", &picture);
    }
    runs(checks);
    orders(checks);
    other_channels(checks);
    changed_bytes(checks);
    all_answers(checks, compared);
}

/// With room to spare; and in less the table is full at every entry in turn.
fn accepted(checks: &mut Checks, name: &str, picture: &Picture) {
    let input = picture.bytes();
    let entries = list(&input, ROOM as usize).entries;
    let owned: u32 = entries.iter().map(|entry| entry.bytes_owned).sum();
    let answer = (0, 36 + u64::from(owned), entries.len());
    checks.listing(name, &input, answer);
    checks.that(name, entries.len() + 3 < ROOM as usize);
    for (room, entry) in entries.iter().enumerate() {
        let full = list(&input, room);
        let place = u64::from(entry.header_place);
        checks.equal("full", (full.number, full.place), (12, place));
    }
}

/// A block that stands directly behind a skipped one: what holds both, whether
/// the bank has come, and its id.
type Behind = (Option<u32>, bool, u32);

fn behind_skipped(entries: &[Entry], found: &mut Vec<Behind>) {
    let mut open: Vec<u32> = Vec::new();
    let mut bank = false;
    for (one, other) in entries.iter().zip(&entries[1..]) {
        bank |= one.id == u32::from(BANK);
        open.truncate(one.level as usize);
        let behind = (open.last().copied(), bank, other.id);
        let is_run = one.skipped == 1 && other.skipped == 1 && one.level == other.level;
        if is_run && !found.contains(&behind) {
            found.push(behind);
        }
        open.push(one.id);
    }
}

/// A run stands in every sort of parent, and goes on with every id that it may.
fn runs(checks: &mut Checks) {
    let mut found = Vec::new();
    for (_, picture) in files::bases() {
        let entries = list(&picture.bytes(), ROOM as usize).entries;
        behind_skipped(&entries, &mut found);
    }
    for id in [1, 2, 9, 10, 11, 12, 65_535] {
        checks.that("before the bank", found.contains(&(None, false, id)));
    }
    for id in [1, 10, 11, 12, 65_535] {
        checks.that("behind the bank", found.contains(&(None, true, id)));
    }
    for parent in [3, 4, 6, 7, 8] {
        let name = format!("a run in {}", parent);
        let ids = [12, 13, 65_535].map(|id| found.contains(&(Some(parent), true, id)));
        checks.that(&name, ids.iter().filter(|&&is| is).count() >= 2);
    }
}

/// The codes of a layer's channels, as they come.
fn codes(layer: &Layer) -> Vec<files::Code> {
    let mut codes = Vec::new();
    for part in &layer.inside {
        if let InLayer::Channel(channel) = part {
            codes.push((channel.bitmap, channel.channel));
        }
    }
    codes
}

/// Channels come in every order, at every depth, and layers with both initial
/// lengths; and there is more than one in a file.
fn orders(checks: &mut Checks) {
    let mut orders = Vec::new();
    let mut initials = Vec::new();
    let mut most = 0;
    for picture in files::layers() {
        let layers = picture.layers();
        most = most.max(layers.len());
        for layer in layers {
            let sort = (picture.image.depth, picture.image.grey);
            orders.push((sort, codes(layer)));
            initials.push((sort, layer.initial));
        }
    }
    checks.equal("layers of a file", most, 3);
    // One colour, two channels with either mask, three with both; then the same
    // with three colours.
    let one = 1 + 2 * 2 + 6;
    let three = 6 + 2 * 24 + 120;
    checks.equal("orders", different(&mut orders), 4 * one + three);
    checks.equal("initial lengths", different(&mut initials), 5 * 2);
}

fn different<T: Ord>(all: &mut Vec<T>) -> usize {
    all.sort_unstable();
    all.dedup();
    all.len()
}

/// How often each answer of a listing is given.
type Times = [usize; 13];

fn count(times: &mut Times, case: &Case) {
    if let Case::Listing { room, input } = case {
        times[list(input, *room as usize).number as usize] += 1;
    }
}

/// These answers and no others, each so often.
fn met(checks: &mut Checks, name: &str, times: Times, expected: &[usize], least: usize) {
    for (number, &times) in times.iter().enumerate() {
        let holds = if expected.contains(&number) {
            times >= least
        } else {
            times == 0
        };
        checks.that(
            &format!("{}: {} is given {} times", name, number, times),
            holds,
        );
    }
}

/// A layer that does not have the channels which it announces is refused for one
/// too many or one too few. Of two masks either will do.
fn other_channels(checks: &mut Checks) {
    let mut times = Times::default();
    for picture in files::other_channels() {
        let input = picture.bytes();
        count(&mut times, &Case::Listing { room: ROOM, input });
    }
    met(checks, "other channels", times, &[0, 9, 10], 100);
}

/// The block of which one byte is another, by its id, if it is one byte.
fn changed_block(file: &Written, case: &Case) -> Option<u16> {
    let input = match case {
        Case::Listing { input, .. } if input.len() == file.bytes.len() => input,
        _ => return None,
    };
    let is_other = |&at: &usize| input[at] != file.bytes[at];
    let mut others = (0..input.len()).filter(is_other);
    let first = others.next()?;
    let mut headers = file.headers.iter().rev();
    let header = headers.find(|header| header.place <= first)?;
    others.next().is_none().then_some(header.id)
}

/// What another byte of a channel, of a layer and of a skipped block can be
/// answered with.
fn changed_bytes(checks: &mut Checks) {
    let [mut channels, mut layers, mut skipped] = [Times::default(); 3];
    for (_, picture) in files::bases() {
        let tree = picture.tree();
        let file = tree.written();
        plain::changes(&tree, &mut |case| match changed_block(&file, &case) {
            Some(CHANNEL) => count(&mut channels, &case),
            Some(LAYER) => count(&mut layers, &case),
            Some(FIRST_UNKNOWN..) => count(&mut skipped, &case),
            _ => {}
        });
    }
    met(checks, "a channel", channels, &[5, 6, 7, 8, 9, 10], 1);
    met(checks, "a layer", layers, &[0, 5, 6, 7, 8, 10], 1);
    // 10 where it is longer and covers a channel or an alpha channel behind it.
    met(checks, "a skipped block", skipped, &[0, 2, 5, 6, 7, 10], 1);
}

/// What any change can be answered with, in all cases and in those of the gate.
fn all_answers(checks: &mut Checks, compared: &[Case]) {
    let expected = [0, 2, 5, 6, 7, 8, 9, 10, 12];
    let mut times = Times::default();
    let mut every = 0;
    plain::every(|case| {
        count(&mut times, &case);
        every += 1;
    });
    met(checks, "plain blocks", times, &expected, 200);
    let mut gate = Vec::new();
    plain::all(&mut gate);
    times = Times::default();
    gate.iter().for_each(|case| count(&mut times, case));
    met(checks, "plain blocks in the gate", times, &expected, 100);
    let enough = every >= 29_000 && gate.len() >= 14_000;
    checks.that("as many as there were", enough);
    for end in [gate.first(), gate.last()].into_iter().flatten() {
        checks.that("plain blocks are compared", compared.contains(end));
    }
}
