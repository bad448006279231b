//! Systematic cases over files: every truncation, every field at its boundary
//! values, every id at every place, rooms from nothing on, and so on, each on
//! small valid files.

use super::{alphas, every_listing, faults, fields, rectangles, views_of};
use crate::case::{Case, ROOM_LIMIT};
use crate::psp::listing::list;
use crate::samples;
use crate::write::{Form, InLayer, Node, Picture, Tree};

/// The small samples, one of each sort.
pub fn bases() -> Vec<Picture> {
    vec![
        samples::grey521(),
        samples::palette(),
        samples::bits1(),
        samples::bits4(),
        samples::greys(),
        samples::skips(),
        samples::masks(),
    ]
}

/// The small samples with a selection and alpha channels.
pub fn with_areas() -> [Picture; 2] {
    [samples::alphas(), samples::early()]
}

pub fn all(cases: &mut Vec<Case>) {
    for base in bases() {
        let tree = base.tree();
        files(&tree, cases);
        fields_of(&tree, &tree.paths(), cases);
        channel_codes(&base, cases);
        rectangles::all(&base, cases);
    }
    for base in with_areas() {
        let tree = base.tree();
        files(&tree, cases);
        // The other blocks of these files have theirs tried above.
        let is_new = |path: &Vec<usize>| matches!(tree.blocks[path[0]].id, 6 | 7);
        let paths: Vec<Vec<usize>> = tree.paths().into_iter().filter(is_new).collect();
        fields_of(&tree, &paths, cases);
        area_codes(&base, cases);
        rectangles::areas(&base, cases);
    }
    for base in [samples::grey521(), samples::palette(), samples::bits4()] {
        faults::all(&base.tree(), cases);
    }
    faults::from(&alphas::small().tree(), 2, cases);
    // Many layers: every room, and every layer's facts.
    rooms(&samples::mug().tree(), cases);
    views(&samples::mug().tree(), cases);
}

/// The sweeps over a whole file.
fn files(tree: &Tree, cases: &mut Vec<Case>) {
    truncations(tree, cases);
    rooms(tree, cases);
    views(tree, cases);
    totals_together(tree, cases);
    ids(tree, cases);
    blocks(tree, cases);
    bytes(tree, cases);
    endings(tree, cases);
}

/// The sweeps over the fields of some of a file's blocks.
fn fields_of(tree: &Tree, paths: &[Vec<usize>], cases: &mut Vec<Case>) {
    chunk_fields(tree, paths, cases);
    header_fields(tree, paths, cases);
}

/// A listing with ample room.
pub fn listing(input: Vec<u8>) -> Case {
    Case::Listing {
        room: ROOM_LIMIT,
        input,
    }
}

/// Inputs of every length up to the whole.
fn truncations(tree: &Tree, cases: &mut Vec<Case>) {
    let whole = tree.bytes();
    for length in 0..=whole.len() {
        cases.push(listing(whole[..length].to_vec()));
    }
}

fn rooms(tree: &Tree, cases: &mut Vec<Case>) {
    let input = tree.bytes();
    let entries = list(&input, ROOM_LIMIT as usize).entries.len() as u32;
    for room in 0..=entries + 2 {
        cases.extend(every_listing(room, 0, &input));
        // One unit short of the last entry: presence comes before the table.
        let cut = input[..input.len() - 1].to_vec();
        cases.push(Case::Listing { room, input: cut });
    }
}

fn views(tree: &Tree, cases: &mut Vec<Case>) {
    let input = tree.bytes();
    let room = ROOM_LIMIT;
    for &ramp in &[0, 1, 4, 256, 768, 1_023, 1_024, 1_025, 1_028, 2_048] {
        cases.push(Case::PaletteView {
            room,
            ramp,
            input: input.clone(),
        });
    }
    for &k in &[
        0,
        1,
        2,
        3,
        4,
        63,
        64,
        256,
        65_536,
        0x7FFF_FFFF,
        0x8000_0000,
        0xFFFF_FFFF,
    ] {
        cases.extend(views_of(room, k, &input));
    }
}

/// Each field of each chunk at its boundary values. Facts are read too: what
/// passes the listing has to come out as written.
fn chunk_fields(tree: &Tree, paths: &[Vec<usize>], cases: &mut Vec<Case>) {
    for path in paths {
        let id = tree.clone().node(path).map_or(0, |node| node.id);
        for field in fields::of_chunk(id) {
            for &value in field.values {
                let mut changed = tree.clone();
                if let Some(node) = changed.node(path) {
                    field.set(&mut node.data, value);
                }
                let input = changed.bytes();
                cases.extend(facts(id, rank(tree, path), &input));
                cases.push(listing(input));
            }
        }
    }
}

/// The facts that are read from block k of an id.
fn facts(id: u16, k: u32, input: &[u8]) -> Option<Case> {
    let (room, input) = (ROOM_LIMIT, input.to_vec());
    match id {
        0 => Some(Case::ImageFacts { room, input }),
        4 => Some(Case::LayerFacts { room, k, input }),
        6 => Some(Case::SelectionFacts { room, input }),
        8 => Some(Case::AlphaFacts { room, k, input }),
        _ => None,
    }
}

/// The number of the block at a path among those of its id in its parent.
fn rank(tree: &Tree, path: &[usize]) -> u32 {
    let mut tree = tree.clone();
    match path.split_last() {
        Some((last, above)) => {
            let siblings = tree.inside(above);
            let is_alike = |node: &&Node| node.id == siblings[*last].id;
            siblings.iter().take(*last).filter(is_alike).count() as u32
        }
        None => 0,
    }
}

fn header_fields(tree: &Tree, paths: &[Vec<usize>], cases: &mut Vec<Case>) {
    let written = tree.written();
    let blocks = tree.paths().into_iter().zip(&written.headers);
    for (_, header) in blocks.filter(|(path, _)| paths.contains(path)) {
        for field in fields::HEADER {
            for &value in field.values {
                let mut input = written.bytes.clone();
                field.set(&mut input[header.place..], value);
                cases.push(listing(input));
            }
        }
    }
    // Totals off by a little, which the boundary values may miss.
    for path in paths {
        for off in -16..=16 {
            let changed = with_totals_off(tree, path, path.len(), off);
            cases.push(listing(changed.bytes()));
        }
    }
}

/// The blocks on the way to a block, from a level on, with totals off by so much.
pub fn with_totals_off(tree: &Tree, path: &[usize], outermost: usize, off: i64) -> Tree {
    let mut changed = tree.clone();
    for level in outermost..=path.len() {
        if let Some(node) = changed.node(&path[..level]) {
            let near = i64::from(node.true_total()) + off;
            node.total = Some(near.clamp(0, 0xFFFF_FFFF) as u32);
        }
    }
    changed
}

/// A total off together with those of all its parents, and for a channel with
/// its stored length, so that the inner check is the one that speaks.
fn totals_together(tree: &Tree, cases: &mut Vec<Case>) {
    for path in tree.paths() {
        for &off in &[
            -13i64,
            -1,
            1,
            2,
            13,
            14,
            15,
            1_000,
            0x7FFF_0000,
            0xFFFF_0000,
        ] {
            let mut changed = with_totals_off(tree, &path, 1, off);
            if let Some(channel) = changed.node(&path).filter(|node| node.id == 5) {
                let stored = (channel.data.len() as i64 - 12 + off).max(0);
                fields::CHANNEL[0].set(&mut channel.data, stored as u64);
            }
            cases.push(listing(changed.bytes()));
        }
    }
}

/// A block of every id before every block and after the last one of every
/// parent; and every block with every id.
pub fn ids(tree: &Tree, cases: &mut Vec<Case>) {
    let mut parents = vec![Vec::new()];
    parents.extend(tree.paths());
    for parent in parents {
        let holds_blocks = match tree.clone().node(&parent) {
            Some(node) => matches!(node.id, 3 | 4 | 6 | 7 | 8),
            None => true,
        };
        if !holds_blocks {
            continue;
        }
        let places = tree.clone().inside(&parent).len();
        for place in 0..=places {
            for &id in fields::IDS {
                let mut changed = tree.clone();
                let data = vec![0; usize::from(id % 3)];
                changed
                    .inside(&parent)
                    .insert(place, Node::new(id, 0, data));
                cases.push(listing(changed.bytes()));
            }
        }
    }
    for path in tree.paths() {
        for &id in fields::IDS {
            let mut changed = tree.clone();
            if let Some(node) = changed.node(&path) {
                node.id = id;
            }
            cases.push(listing(changed.bytes()));
        }
    }
}

/// Blocks deleted, repeated, swapped with the next, taken out of their
/// parent, and put into another.
pub fn blocks(tree: &Tree, cases: &mut Vec<Case>) {
    let paths = tree.paths();
    for path in &paths {
        let (place, above) = match path.split_last() {
            Some((last, above)) => (*last, above),
            None => continue,
        };
        let mut push = |change: &dyn Fn(&mut Tree)| {
            let mut changed = tree.clone();
            change(&mut changed);
            cases.push(listing(changed.bytes()));
        };
        let block = || tree.clone().inside(above).remove(place);
        let delete = |tree: &mut Tree| tree.inside(above).remove(place);
        push(&|tree| drop(delete(tree)));
        push(&|tree| tree.inside(above).insert(place, block()));
        push(&|tree| tree.inside(above).push(block()));
        // One more than announced, and past its parent's end.
        push(&|tree| {
            let mut block = block();
            block.total = Some(u32::MAX);
            tree.inside(above).push(block);
        });
        if place + 1 < tree.clone().inside(above).len() {
            push(&|tree| tree.inside(above).swap(place, place + 1));
        }
        // Out of its parent, to the start of the main blocks and to their end.
        push(&|tree| {
            let block = delete(tree);
            tree.blocks.insert(1.min(tree.blocks.len()), block);
        });
        push(&|tree| {
            let block = delete(tree);
            tree.blocks.push(block);
        });
        for parent in &paths {
            push(&|tree| tree.inside(parent).push(block()));
        }
    }
}

/// Whether a byte of a chunk lies inside a name or blend ranges, by the block's id.
pub fn is_free(id: u16, at: usize) -> bool {
    let is_in_name = (2..256).contains(&at);
    let is_in_ranges = (331..371).contains(&at);
    match id {
        4 => is_in_name || is_in_ranges,
        8 => is_in_name,
        _ => false,
    }
}

/// Every byte but those inside names and blend ranges, with one bit or all
/// turned.
fn bytes(tree: &Tree, cases: &mut Vec<Case>) {
    let written = tree.written();
    let is_free = |at: usize| {
        let mut headers = written.headers.iter();
        headers.any(|header| is_free(header.id, at.saturating_sub(header.place + 14)))
    };
    for at in 0..written.bytes.len() {
        if is_free(at) {
            continue;
        }
        let mut input = written.bytes.clone();
        input[at] ^= [1, 0x80, 0xFF, 0x10][at % 4];
        cases.push(listing(input));
    }
}

/// Bytes and blocks after a whole file.
fn endings(tree: &Tree, cases: &mut Vec<Case>) {
    let whole = tree.bytes();
    for more in 1..=20 {
        let mut input = whole.clone();
        input.resize(whole.len() + more, b'~');
        cases.push(listing(input));
        let mut input = whole.clone();
        input.extend_from_slice(&tree.bytes()[36..36 + more]);
        cases.push(listing(input));
    }
    for &total in fields::LENGTHS {
        let mut block = Node::new(12, 0, Vec::new());
        block.total = Some(total as u32);
        let mut changed = tree.clone();
        changed.blocks.push(block);
        cases.push(listing(changed.bytes()));
    }
}

/// Every bitmap with every channel code in each channel of a selection or an
/// alpha channel. Half of the codes come with a plane length of neither form:
/// "expected" is judged before the plane length.
fn area_codes(base: &Picture, cases: &mut Vec<Case>) {
    for area in 0..base.clone().areas_mut().len() {
        for code in 0..8 * 6 {
            let mut changed = base.clone();
            let mut areas = changed.areas_mut();
            let length = areas[area].plane_length(Form::Padded) as u32;
            for part in areas[area].inside.iter_mut() {
                if let InLayer::Channel(channel) = part {
                    channel.bitmap = code / 6;
                    channel.channel = code % 6;
                    channel.plane = Some(length + u32::from(code % 2));
                }
            }
            cases.push(listing(changed.bytes()));
        }
    }
}

/// Every bitmap with every channel code in each channel of a picture's layers,
/// the plane length as it was and as the bitmap asks for.
fn channel_codes(base: &Picture, cases: &mut Vec<Case>) {
    for layer in 0..base.layers().len() {
        for at in 0..base.layers()[layer].inside.len() {
            for code in 0..8 * 6 {
                let mut changed = base.clone();
                let image = base.image.clone();
                if let Some(layer) = changed.layers_mut().get_mut(layer) {
                    let true_plane = layer.plane_length(&image, code / 6, Form::Padded) as u32;
                    if let Some(InLayer::Channel(channel)) = layer.inside.get_mut(at) {
                        let kept = layer_plane(base, channel.bitmap, true_plane, code);
                        channel.bitmap = code / 6;
                        channel.channel = code % 6;
                        channel.plane = Some(kept);
                    }
                }
                cases.push(listing(changed.bytes()));
            }
        }
    }
}

/// Half of the codes keep the plane length of the old bitmap, which differs
/// in some samples: "expected" is judged before the plane length.
fn layer_plane(base: &Picture, old_bitmap: u16, true_plane: u32, code: u16) -> u32 {
    if code % 2 == 0 {
        true_plane
    } else {
        base.layers().first().map_or(0, |layer| {
            layer.plane_length(&base.image, old_bitmap, Form::Padded) as u32
        })
    }
}
