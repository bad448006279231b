//! Two faults in one block, so that the order of the checks shows.

use super::fields;
use super::sweeps::listing;
use crate::case::Case;
use crate::write::{Node, Tree};

/// A value that no rule permits in a chunk's field.
type BadField = (usize, usize, u64);

fn bad_fields(id: u16) -> &'static [BadField] {
    match id {
        0 => &[
            (0, 4, 0),
            (16, 1, 3),
            (17, 2, 2),
            (17, 2, 3),
            (21, 2, 2),
            (36, 2, 0),
        ],
        2 => &[(0, 4, 0), (0, 4, 1), (0, 4, 257)],
        4 => &[
            (256, 1, 2),
            (257, 4, 40_000),
            (281, 4, 40_000),
            (329, 2, 6),
            (371, 2, 0),
        ],
        5 => &[
            (0, 4, 0),
            (0, 4, 77),
            (4, 4, 1),
            (8, 2, 1),
            (8, 2, 3),
            (8, 2, 6),
            (10, 2, 4),
        ],
        6 => &[(0, 4, 40_000), (24, 4, 40_000), (32, 2, 2)],
        7 => &[(0, 2, 0), (0, 2, 3)],
        8 => &[(256, 4, 40_000), (280, 4, 40_000), (290, 2, 2)],
        _ => &[],
    }
}

/// A change of a block that no rule permits.
type Fault = Box<dyn Fn(&mut Node)>;

fn faults(id: u16) -> Vec<Fault> {
    let mut faults: Vec<Fault> = vec![
        Box::new(|node| node.mark[3] = 1),
        Box::new(|node| node.id = if node.id == 8 { 5 } else { 8 }),
        Box::new(|node| node.id = 12),
        Box::new(|node| node.initial = 7),
        Box::new(|node| node.total = Some(0)),
        Box::new(|node| node.total = Some(node.initial)),
        Box::new(|node| node.total = Some(node.initial.saturating_sub(1))),
        Box::new(|node| node.total = Some(node.true_total() + 1)),
        Box::new(|node| node.total = Some(0xFFFF_FFFF)),
    ];
    for &(offset, size, value) in bad_fields(id) {
        let set = move |node: &mut Node| fields::set(&mut node.data, offset, size, value);
        faults.push(Box::new(set));
    }
    faults
}

/// Every two faults in each block of a file.
pub fn all(tree: &Tree, cases: &mut Vec<Case>) {
    from(tree, 0, cases);
}

/// Every two faults in each main block from a given one on, and in each block
/// inside them.
pub fn from(tree: &Tree, first: usize, cases: &mut Vec<Case>) {
    let headers = tree.written().headers;
    let blocks = tree.paths().into_iter().zip(headers);
    for (path, header) in blocks.filter(|(path, _)| path[0] >= first) {
        let faults = faults(header.id);
        for (at, first) in faults.iter().enumerate() {
            for second in &faults[at..] {
                let mut changed = tree.clone();
                if let Some(node) = changed.node(&path) {
                    first(node);
                    second(node);
                }
                cuts(&changed.bytes(), header.place, cases);
            }
        }
    }
}

/// The input whole, cut after a block's header, and cut inside what follows.
fn cuts(whole: &[u8], place: usize, cases: &mut Vec<Case>) {
    for end in [whole.len(), place + 14, place + 17, place + 27] {
        if end <= whole.len() {
            cases.push(listing(whole[..end].to_vec()));
        }
    }
}
