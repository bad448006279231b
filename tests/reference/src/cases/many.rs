//! Inputs of very many blocks, too long to be among the seeded cases: some
//! 300,000 empty ones of an unknown id behind document 01's file, at the main
//! level, in a bank that claims the largest length, and in a layer that covers
//! them all; and some 12,000 alpha channels. They are walked without a table,
//! and no stack grows with them.

use crate::case::Case;
use crate::psp::rectangle::Rectangle;
use crate::samples;
use crate::write::{self, Alpha, Area, InAlphaBank, Node, Tree};

/// Entries that are enough for each of them.
const ROOM: u32 = 300_000;

/// Empty blocks that fit 4 MiB behind the file.
const BLOCKS: usize = 299_555;

/// Alpha channels without pixels that fit 4 MiB behind the file.
const ALPHAS: usize = 12_631;

pub fn cases() -> [Case; 4] {
    inputs().map(|input| Case::Count { room: ROOM, input })
}

pub fn inputs() -> [Vec<u8>; 4] {
    let mut claimed = tree(&[]);
    claimed.blocks[1].total = Some(u32::MAX);
    [tree(&[]), claimed, tree(&[1, 0]), alphas()].map(|tree| tree.bytes())
}

/// The blocks behind all else in a parent.
fn tree(parent: &[usize]) -> Tree {
    let mut tree = samples::grey521().tree();
    let blocks = vec![Node::new(12, 0, Vec::new()); BLOCKS];
    tree.inside(parent).extend(blocks);
    tree
}

fn alphas() -> Tree {
    let area = Area::new(Rectangle::default()).with(write::ALPHA, Vec::new());
    let alpha = InAlphaBank::Alpha(Alpha::new("", area));
    samples::grey521().alphas(vec![alpha; ALPHAS]).tree()
}
