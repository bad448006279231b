//! Fields that are judged together, in every combination that matters.

use super::fields;
use super::sweeps::{bases, listing, with_areas};
use crate::case::{Case, ROOM_LIMIT};
use crate::psp::rectangle::Rectangle;
use crate::samples;
use crate::write::{file_header, Image, InBank, Layer, Node, Picture, Tree};

pub fn all(cases: &mut Vec<Case>) {
    file_headers(cases);
    image_products(cases);
    palette_products(cases);
    layer_products(cases);
    huge_parents(cases);
    layer_counts(cases);
    names(cases);
}

fn file_headers(cases: &mut Vec<Case>) {
    let mut tree = samples::grey521().tree();
    let versions = [0, 1, 2, 3, 4, 256, 259, 768, 65_535];
    for &major in &versions {
        for &minor in &versions {
            tree.header = file_header(major, minor);
            cases.push(listing(tree.bytes()));
        }
    }
    let good = samples::grey521().bytes();
    for at in 0..36 {
        for &turn in &[1, 0x20, 0x80, 0xFF] {
            let mut input = good.clone();
            input[at] ^= turn;
            cases.push(listing(input.clone()));
            // Judged once present, whatever follows.
            input.truncate(36);
            cases.push(listing(input.clone()));
            input.truncate(35);
            cases.push(listing(input));
        }
    }
    // Both are wrong: the signature speaks first.
    for at in [0, 26, 31] {
        for version in 32..36 {
            let mut input = good.clone();
            input[at] ^= 1;
            input[version] ^= 1;
            cases.push(listing(input));
        }
    }
}

/// Fields of the image chunk that are judged together.
fn image_products(cases: &mut Vec<Case>) {
    let samples = [samples::grey521(), samples::palette(), samples::skips()];
    for base in &samples {
        for &metric in &[0, 1, 2, 3, 255] {
            for &resolution in fields::RESOLUTIONS {
                let mut picture = base.clone();
                picture.image.metric = metric;
                picture.image.resolution = resolution;
                cases.push(Case::ImageFacts {
                    room: ROOM_LIMIT,
                    input: picture.bytes(),
                });
                // Compression 2 speaks only when all else is good.
                picture.image.compression = 2;
                cases.push(listing(picture.bytes()));
            }
        }
        for &depth in &[0, 1, 2, 4, 8, 16, 24, 25, 32] {
            for &colours in &[0, 1, 2, 4, 16, 256, 65_536, 16_777_216] {
                for grey in 0..3 {
                    for layer_count in 0..3 {
                        let mut picture = base.clone();
                        picture.image.depth = depth;
                        picture.image.colours = colours;
                        picture.image.grey = grey;
                        picture.image.layer_count = layer_count;
                        picture.image.compression = u16::from(grey) + u16::from(depth == 24);
                        cases.push(listing(picture.tree().bytes()));
                    }
                }
            }
        }
    }
}

/// A palette's total, count and entries present, all against each other.
fn palette_products(cases: &mut Vec<Case>) {
    for base in [samples::grey521(), samples::bits4()].iter() {
        let mut tree = base.tree();
        tree.blocks.retain(|node| node.id != 2);
        for &total in &[0, 3, 4, 5, 7, 8, 9, 12, 68, 72, 1_028, 1_032, 0xFFFF_FFFF] {
            for &count in &[
                0,
                1,
                2,
                16,
                17,
                256,
                257,
                0x4000_0000,
                0x4000_0001,
                0xFFFF_FFFF,
            ] {
                for &entries in &[0, 4, 64, 1_024] {
                    let mut data = u32::to_le_bytes(count).to_vec();
                    data.resize(4 + entries, 6);
                    let mut palette = Node::new(2, 4, data);
                    palette.total = Some(total);
                    // As the last block, so that its bytes may be missing.
                    let mut last = tree.clone();
                    last.blocks.push(palette);
                    let mut input = last.bytes();
                    cases.push(listing(input.clone()));
                    if entries == 0 {
                        input.truncate(input.len() - 1);
                        cases.push(listing(input));
                    }
                }
            }
        }
    }
}

/// Bitmaps and channels are judged together, and against the depth.
fn layer_products(cases: &mut Vec<Case>) {
    for base in &[
        samples::grey521(),
        samples::bits4(),
        samples::greys(),
        samples::skips(),
    ] {
        for bitmaps in 0..6 {
            for channels in 0..8 {
                let mut picture = base.clone();
                if let Some(layer) = picture.layers_mut().first_mut() {
                    layer.bitmaps = bitmaps;
                    layer.channels = channels;
                }
                cases.push(listing(picture.bytes()));
            }
        }
    }
}

/// Parents that claim to go on for ever: what follows them lies inside, and no
/// sum may wrap.
fn huge_parents(cases: &mut Vec<Case>) {
    const HUGE: [u32; 8] = [
        0x7FFF_FFFF,
        0x8000_0000,
        0xFFFF_FFF1,
        0xFFFF_FFF2,
        0xFFFF_FFFF,
        0xFFFF_FFFF - 65,
        0xFFFF_FFFF - 102,
        0xFFFF_FFFF - 116,
    ];
    let after = [None, Some(3), Some(4), Some(5), Some(9), Some(12)];
    let mut huge = |base: &Picture, ids: [u16; 2], after: &[Option<u16>]| {
        for outer in HUGE {
            for inner in [
                None,
                Some(!0),
                Some(outer),
                Some(outer - 14),
                Some(outer - 13),
            ] {
                for id in after {
                    let mut tree = base.tree();
                    set_totals(&mut tree, ids, outer, inner);
                    tree.blocks
                        .extend(id.map(|id| Node::new(id, 0, Vec::new())));
                    cases.push(listing(tree.bytes()));
                }
            }
        }
    };
    for base in bases() {
        huge(&base, [3, 4], &after);
    }
    for base in with_areas() {
        huge(&base, [6, 5], &[None, Some(5), Some(12)]);
        huge(&base, [7, 8], &[None, Some(8), Some(12)]);
    }
}

/// Sets the totals of the main block of an id and, if asked to, of the first
/// block of an id inside it.
fn set_totals(tree: &mut Tree, [outer, inner]: [u16; 2], total: u32, inner_total: Option<u32>) {
    for node in tree.blocks.iter_mut().filter(|node| node.id == outer) {
        node.total = Some(total);
        let mut inside = node.children.iter_mut().filter(|node| node.id == inner);
        if let (Some(first), Some(_)) = (inside.next(), inner_total) {
            first.total = inner_total;
        }
    }
}

/// One to 66 layers announced and present, the same number or one off.
fn layer_counts(cases: &mut Vec<Case>) {
    for &present in &[0u16, 1, 2, 3, 63, 64, 65, 66] {
        for &(grey, depth) in &[(true, 8), (false, 24), (false, 8)] {
            let layer = |_| {
                let layer = Layer::new(Rectangle::default());
                InBank::Layer(if depth == 24 {
                    let layer = layer.with(0, 1, Vec::new()).with(0, 2, Vec::new());
                    layer.with(0, 3, Vec::new())
                } else {
                    layer.with(0, 0, Vec::new())
                })
            };
            let bank = (0..present).map(layer).collect();
            let picture = Picture::new(Image::new(depth, grey)).bank(bank);
            for announced in present.saturating_sub(1)..=present + 1 {
                let mut picture = picture.clone();
                picture.image.layer_count = announced;
                let input = picture.bytes();
                cases.push(listing(input.clone()));
                for &k in &[0, 62, 63, 64] {
                    cases.push(Case::LayerFacts {
                        room: ROOM_LIMIT,
                        k,
                        input: input.clone(),
                    });
                }
                cases.push(Case::Listing { room: 100, input });
            }
        }
    }
}

/// Names that end everywhere, and samples with many layers.
fn names(cases: &mut Vec<Case>) {
    for length in 0..=256 {
        let mut picture = samples::greys();
        for layer in picture.layers_mut() {
            layer.name = [0xC3; 256];
            if let Some(byte) = layer.name.get_mut(length) {
                *byte = 0;
            }
        }
        let k = (length % 3) as u32;
        cases.push(Case::LayerName {
            room: ROOM_LIMIT,
            k,
            input: picture.bytes(),
        });
    }
    let eleven = samples::layers11().bytes();
    for k in 0..13 {
        cases.push(Case::LayerName {
            room: ROOM_LIMIT,
            k,
            input: eleven.clone(),
        });
        cases.push(Case::LayerFacts {
            room: 57,
            k,
            input: eleven.clone(),
        });
    }
}
