//! Random damage: to the tree of a picture (blocks deleted, repeated, moved,
//! renamed, with wrong lengths and fields) and to the bytes of a file.

use super::fields;
use crate::random::Random;
use crate::write::{file_header, Form, Holder, InLayer, Node, Picture, Tree};

/// The bytes of a picture after a few damages of any sort.
pub fn damaged(random: &mut Random, picture: &Picture) -> Vec<u8> {
    let mut picture = picture.clone();
    if random.one_in(8) {
        rectangle(random, &mut picture);
    }
    if random.one_in(16) {
        form(random, &mut picture);
    }
    let mut tree = picture.tree();
    let times = random.pick(&[1, 1, 1, 1, 2, 3]);
    for _ in 0..times {
        if random.one_in(4) {
            continue;
        }
        tree_damage(random, &mut tree);
    }
    let mut bytes = tree.bytes();
    if random.one_in(4) {
        byte_damage(random, &mut bytes);
    }
    bytes
}

/// A layer, a selection or an alpha channel.
fn any_holder<'a>(random: &mut Random, picture: &'a mut Picture) -> Option<Holder<'a>> {
    let holders = picture.holders_mut();
    let chosen = random.index(holders.len());
    holders.into_iter().nth(chosen)
}

/// Gives the planes of one of them lengths without padding, whatever the depth.
fn form(random: &mut Random, picture: &mut Picture) {
    let inside = any_holder(random, picture).map(Holder::inside);
    for part in inside.into_iter().flatten() {
        if let InLayer::Channel(channel) = part {
            channel.form = Form::Unpadded;
        }
    }
}

/// Moves a corner of one of their rectangles by a little, plane lengths
/// following.
fn rectangle(random: &mut Random, picture: &mut Picture) {
    let mut rectangles = match any_holder(random, picture) {
        Some(holder) => holder.rectangles(),
        None => return,
    };
    let rectangle = rectangles.swap_remove(random.index(rectangles.len()));
    let side = match random.below(4) {
        0 => &mut rectangle.left,
        1 => &mut rectangle.top,
        2 => &mut rectangle.right,
        _ => &mut rectangle.bottom,
    };
    let step = random.pick(&[
        -30_001, -30_000, -4_097, -5, -1, 1, 5, 4_097, 30_000, 30_001,
    ]);
    *side = side.saturating_add(step);
}

fn tree_damage(random: &mut Random, tree: &mut Tree) {
    let paths = tree.paths();
    if paths.is_empty() {
        return;
    }
    let path = paths[random.index(paths.len())].clone();
    match random.below(14) {
        turn @ 0..=6 => structure(random, tree, &path, turn),
        turn => {
            if turn == 12 && random.one_in(4) {
                let versions = [0, 1, 2, 3, 4, 256, 259, 65_535];
                tree.header = file_header(random.pick(&versions), random.pick(&versions));
            } else if let Some(node) = tree.node(&path) {
                block(random, node, turn);
            }
        }
    }
}

/// Where a block stands: deleted, repeated, moved, wrapped or renamed.
fn structure(random: &mut Random, tree: &mut Tree, path: &[usize], turn: u64) {
    let (place, above) = match path.split_last() {
        Some((last, above)) => (*last, above),
        None => return,
    };
    let siblings = tree.inside(above);
    match turn {
        0 => {
            siblings.remove(place);
        }
        1 => {
            let twin = siblings[place].clone();
            siblings.insert(place, twin);
        }
        2 => {
            let other = random.index(siblings.len());
            siblings.swap(place, other);
        }
        3 => {
            let node = siblings.remove(place);
            put_anywhere(random, tree, node);
        }
        4 => {
            // Around it: a block that holds it.
            let mut outer = Node::new(random.pick(fields::IDS), 0, Vec::new());
            outer.children.push(siblings[place].clone());
            siblings[place] = outer;
        }
        5 => siblings[place].id = random.pick(fields::IDS),
        _ => {
            let length = random.index(6);
            let node = Node::new(random.pick(fields::IDS), 0, random.bytes(length));
            siblings.insert(place, node);
        }
    }
}

/// Into any other block, or among the main ones.
fn put_anywhere(random: &mut Random, tree: &mut Tree, node: Node) {
    let paths = tree.paths();
    let chosen = random.index(paths.len() + 1);
    let parent = paths.get(chosen).cloned().unwrap_or_default();
    let siblings = tree.inside(&parent);
    let at = random.index(siblings.len() + 1);
    siblings.insert(at, node);
}

/// A block's own header and chunk: lengths, mark, fields.
fn block(random: &mut Random, node: &mut Node, turn: u64) {
    match turn {
        7 | 8 => {
            // A total off by a little, with the content as it was.
            let near = i64::from(node.true_total()) + random.between(-15, 15);
            node.total = Some(near.max(0) as u32);
        }
        9 => node.total = Some(random.pick(fields::LENGTHS) as u32),
        10 => node.initial = random.pick(fields::LENGTHS) as u32,
        11 => {
            let at = random.index(node.mark.len());
            node.mark[at] ^= 1 << random.below(8);
        }
        12 => {
            // Too little or too much of its own bytes, the total true.
            let length = node.data.len() as i64 + random.between(-3, 3);
            node.data.resize(length.max(0) as usize, 0);
        }
        _ => {
            let chunk = fields::of_chunk(node.id);
            if let Some(field) = chunk.get(random.index(chunk.len())) {
                let value = random.pick(field.values);
                field.set(&mut node.data, value);
            }
        }
    }
}

fn byte_damage(random: &mut Random, bytes: &mut Vec<u8>) {
    let length = bytes.len();
    match random.below(7) {
        0 | 1 => bytes.truncate(random.index(length + 1)),
        2 => {
            for _ in 0..random.between(1, 4) {
                if let Some(byte) = bytes.get_mut(random.index(length)) {
                    *byte ^= 1 << random.below(8);
                }
            }
        }
        3 => {
            if let Some(byte) = bytes.get_mut(random.index(length)) {
                *byte = random.byte();
            }
        }
        4 => {
            let at = random.index(length + 1);
            bytes.insert(at, random.byte());
        }
        5 => {
            if length > 0 {
                bytes.remove(random.index(length));
            }
        }
        _ => {
            let more = random.between(1, 20) as usize;
            bytes.extend(random.bytes(more));
        }
    }
}
