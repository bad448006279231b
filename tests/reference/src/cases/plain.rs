//! Plain blocks: runs of skipped blocks, and whole layers with their channels. A
//! walk may pass them by fewer tests than it makes of other blocks, and has its
//! edges where one is not quite plain. So every sort stands in every parent; each
//! of its bytes that is judged is another, it is cut, told another length, or left
//! without room, and its parent ends inside it; and every question is asked.

pub mod files;

use std::ops::Range;

use super::sweeps::{self, is_free, with_totals_off};
use super::{every_listing, fields, views_of};
use crate::case::Case;
use crate::psp::listing::{list, FIRST_UNKNOWN};
use crate::write::{HeaderPlace, Node, Tree, Written};

/// More entries than any of these files has.
pub const ROOM: u32 = 64;

/// One in so many of the changed files is systematic. Bytes are changed four
/// times each, so that this meets all of them.
const SPREAD: usize = 3;

/// The systematic cases: what is a matter of place, and a spread of the rest.
pub fn all(cases: &mut Vec<Case>) {
    placed(&mut |case| cases.push(case));
    let mut others = Vec::new();
    changed(&mut |case| others.push(case));
    cases.extend(others.into_iter().step_by(SPREAD));
}

/// All of them: more than the gate has time for.
pub fn every(mut give: impl FnMut(Case)) {
    placed(&mut give);
    changed(&mut give);
}

type Give<'a> = &'a mut dyn FnMut(Case);

fn listing(input: Vec<u8>) -> Case {
    Case::Listing { room: ROOM, input }
}

/// The files as they are, of which every question is asked; layers of every sort,
/// each with its facts and its name; and what stands where it may not.
fn placed(give: Give) {
    for (_, picture) in files::bases() {
        let tree = picture.tree();
        questions(&tree.bytes(), give);
        strangers(&tree, give);
        known_in_runs(&tree, give);
    }
    for picture in files::layers() {
        let input = picture.bytes();
        let [facts, name, ..] = views_of(ROOM, 0, &input);
        [facts, name, listing(input)]
            .into_iter()
            .for_each(&mut *give);
    }
    for picture in files::other_channels() {
        give(listing(picture.bytes()));
    }
}

/// In rooms from none to more than enough; facts and names by every number up to
/// one that is not there.
fn questions(input: &[u8], give: Give) {
    let count = list(input, ROOM as usize).entries.len() as u32;
    for room in 0..=count + 1 {
        every_listing(room, room % 3, input)
            .into_iter()
            .for_each(&mut *give);
    }
    for k in 0..=3 {
        views_of(ROOM, k, input).into_iter().for_each(&mut *give);
    }
}

/// The small files with one thing changed.
fn changed(give: Give) {
    for (_, picture) in files::bases() {
        changes(&picture.tree(), give);
    }
}

/// One file with one thing changed.
pub fn changes(tree: &Tree, give: Give) {
    let file = tree.written();
    bytes(&file, give);
    lengths(&file, give);
    cuts(&file.bytes, give);
    ends(tree, give);
    let mut moved = Vec::new();
    sweeps::blocks(tree, &mut moved);
    moved.into_iter().for_each(give);
}

fn is_plain(header: &&HeaderPlace) -> bool {
    !matches!(header.id, 0 | 3 | 6 | 7 | 8)
}

/// Each byte of a plain block's header and chunk, but those inside names and
/// blend ranges, with four other values.
fn bytes(file: &Written, give: Give) {
    for header in file.headers.iter().filter(is_plain) {
        let chunk = match header.id {
            4 => 375,
            5 => 12,
            _ => 0,
        };
        let judged = (0..chunk).filter(|&at| !is_free(header.id, at));
        for at in (0..14).chain(judged.map(|at| 14 + at)) {
            let at = header.place + at;
            let byte = file.bytes[at];
            for other in [byte.wrapping_add(1), byte ^ 0x80, 0, 255] {
                let mut input = file.bytes.clone();
                input[at] = other;
                give(listing(input));
            }
        }
    }
}

/// Both lengths of each header: one off, none, and the largest.
fn lengths(file: &Written, give: Give) {
    for header in &file.headers {
        for field in [6, 10] {
            let at = header.place + field;
            let mut length = [0; 4];
            length.copy_from_slice(&file.bytes[at..at + 4]);
            let length = u32::from_le_bytes(length);
            for other in [length.wrapping_sub(1), length.wrapping_add(1), 0, u32::MAX] {
                let mut input = file.bytes.clone();
                fields::set(&mut input, at, 4, u64::from(other));
                give(listing(input));
            }
        }
    }
}

/// Every beginning. Where the table is full before an entry, that entry without
/// its last byte and with it: presence comes first.
fn cuts(whole: &[u8], give: Give) {
    for length in 0..whole.len() {
        give(listing(whole[..length].to_vec()));
    }
    for (room, entry) in (0..).zip(list(whole, ROOM as usize).entries) {
        let end = (entry.header_place + entry.bytes_owned) as usize;
        for length in [end - 1, end] {
            let input = whole[..length].to_vec();
            give(Case::Listing { room, input });
        }
    }
}

/// The way to each block that holds blocks, and where its total says that it lies.
fn parents(tree: &Tree) -> Vec<(Vec<usize>, Range<usize>)> {
    let headers = tree.written().headers;
    let blocks = tree.paths().into_iter().zip(headers);
    let parent = |(path, header): (Vec<usize>, HeaderPlace)| {
        let node = tree.clone().node(&path).cloned()?;
        let start = header.place + 14;
        let inside = start..start + node.true_total() as usize;
        (!node.children.is_empty()).then_some((path, inside))
    };
    blocks.filter_map(parent).collect()
}

/// Each parent that ends one byte before a block inside it, or up to fifteen
/// bytes behind where one begins or it ends itself: alone, and with what holds it
/// ending alike.
fn ends(tree: &Tree, give: Give) {
    let headers = tree.written().headers;
    for (path, inside) in parents(tree) {
        let begun = headers.iter().map(|header| header.place);
        let begun = begun.filter(|place| inside.contains(place));
        let near = begun.chain([inside.end]);
        for end in near.flat_map(|place| place - 1..place + 16) {
            let off = end as i64 - inside.end as i64;
            for outermost in 1..=path.len() {
                let changed = with_totals_off(tree, &path, outermost, off);
                give(listing(changed.bytes()));
            }
        }
    }
}

/// Every id everywhere; and every block in front of all others in every parent:
/// what is plain in its own is out of place in the rest.
fn strangers(tree: &Tree, give: Give) {
    let mut named = Vec::new();
    sweeps::ids(tree, &mut named);
    named.into_iter().for_each(&mut *give);
    for path in tree.paths() {
        for (parent, _) in parents(tree) {
            let mut changed = tree.clone();
            let block = changed.node(&path).cloned();
            changed.inside(&parent).splice(0..0, block);
            give(listing(changed.bytes()));
        }
    }
}

/// A block of every known id behind a skipped one, and every question: what it is
/// there does not depend on what is asked.
fn known_in_runs(tree: &Tree, give: Give) {
    let headers = tree.written().headers;
    let mut blocks = tree.paths().into_iter().zip(headers);
    let skipped = blocks.find(|(_, header)| header.id >= FIRST_UNKNOWN);
    let Some((mut behind, _)) = skipped else {
        return;
    };
    let place = behind.pop().map_or(0, |place| place + 1);
    for id in 0..FIRST_UNKNOWN {
        let mut changed = tree.clone();
        let block = Node::new(id, 0, Vec::new());
        changed.inside(&behind).insert(place, block);
        every_listing(ROOM, 0, &changed.bytes())
            .into_iter()
            .for_each(&mut *give);
    }
}
