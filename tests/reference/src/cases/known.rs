//! Small files with one thing changed, each with the answer that a reader of
//! document 01 works out by hand: a block of each id at each spot, a field of
//! the file of 521 bytes, palettes around the bank. The checks of this program
//! hold the reference to these answers.

use super::sweeps::listing;
use super::{alphas, every_listing};
use crate::case::{Case, ROOM_LIMIT};
use crate::psp::rectangle::Rectangle;
use crate::samples;
use crate::write::{Image, InBank, Layer, Node, Picture};

/// A file, and the number, place and count of its listing.
pub struct Known {
    pub name: &'static str,
    pub input: Vec<u8>,
    pub answer: (u32, u64, usize),
}

pub fn all(cases: &mut Vec<Case>) {
    for known in files() {
        cases.push(listing(known.input));
    }
    views(cases);
}

pub fn files() -> Vec<Known> {
    let mut files = Vec::new();
    grid(&mut files);
    fields(&mut files);
    palettes(&mut files);
    surplus(&mut files);
    alphas::known(&mut files);
    files
}

/// The ids of a line of the grid: those that document 01 names, and two more.
const IDS: [u16; 14] = [0, 1, 2, 3, 4, 5, 6, 7, 8, 9, 10, 11, 12, 65_535];

/// Where an empty block is put into a file.
struct Spot {
    name: &'static str,
    file: fn() -> Picture,
    parent: &'static [usize],
    at: usize,
    /// The answer's number for each id.
    numbers: [u32; 14],
    /// The block's place, and the entries before it.
    refused: (u64, usize),
}

/// The file of 521 bytes, and the one of 953 that adds to it a selection and an
/// alpha channel. An empty block where its id may stand is skipped, or has a
/// length that does not fit (6), or is a bank without a layer (10), or is one
/// too many (9).
const SPOTS: [Spot; 12] = [
    Spot {
        name: "first",
        file: samples::grey521,
        parent: &[],
        at: 0,
        numbers: [6, 7, 7, 7, 7, 7, 7, 7, 7, 7, 7, 7, 7, 7],
        refused: (36, 0),
    },
    Spot {
        name: "before the bank",
        file: samples::grey521,
        parent: &[],
        at: 1,
        numbers: [7, 0, 6, 10, 7, 7, 6, 6, 7, 0, 0, 0, 0, 0],
        refused: (88, 1),
    },
    Spot {
        name: "in the bank",
        file: samples::grey521,
        parent: &[1],
        at: 0,
        numbers: [7, 7, 7, 7, 6, 7, 7, 7, 7, 7, 7, 7, 0, 0],
        refused: (102, 2),
    },
    Spot {
        name: "in the layer",
        file: samples::grey521,
        parent: &[1, 0],
        at: 0,
        numbers: [7, 7, 7, 7, 7, 6, 7, 7, 7, 7, 7, 7, 0, 0],
        refused: (491, 3),
    },
    Spot {
        name: "after the bank",
        file: samples::grey521,
        parent: &[],
        at: 2,
        numbers: [7, 0, 6, 7, 7, 7, 6, 6, 7, 7, 0, 0, 0, 0],
        refused: (521, 4),
    },
    Spot {
        name: "after selection and alpha bank",
        file: alphas::small,
        parent: &[],
        at: 4,
        numbers: [7, 0, 6, 7, 7, 7, 7, 7, 7, 7, 0, 0, 0, 0],
        refused: (953, 9),
    },
    Spot {
        name: "in the selection",
        file: alphas::small,
        parent: &[2],
        at: 0,
        numbers: [7, 7, 7, 7, 7, 6, 7, 7, 7, 7, 7, 7, 0, 0],
        refused: (571, 5),
    },
    Spot {
        name: "after the selection's channel",
        file: alphas::small,
        parent: &[2],
        at: 1,
        numbers: [7, 7, 7, 7, 7, 9, 7, 7, 7, 7, 7, 7, 0, 0],
        refused: (601, 6),
    },
    Spot {
        name: "in the alpha bank",
        file: alphas::small,
        parent: &[3],
        at: 0,
        numbers: [7, 7, 7, 7, 7, 7, 7, 7, 6, 7, 7, 7, 0, 0],
        refused: (617, 7),
    },
    Spot {
        name: "after the alpha channel",
        file: alphas::small,
        parent: &[3],
        at: 1,
        numbers: [7, 7, 7, 7, 7, 7, 7, 7, 9, 7, 7, 7, 0, 0],
        refused: (953, 9),
    },
    Spot {
        name: "in the alpha channel",
        file: alphas::small,
        parent: &[3, 0],
        at: 0,
        numbers: [7, 7, 7, 7, 7, 6, 7, 7, 7, 7, 7, 7, 0, 0],
        refused: (923, 8),
    },
    Spot {
        name: "after the alpha channel's channel",
        file: alphas::small,
        parent: &[3, 0],
        at: 1,
        numbers: [7, 7, 7, 7, 7, 9, 7, 7, 7, 7, 7, 7, 0, 0],
        refused: (953, 9),
    },
];

fn grid(files: &mut Vec<Known>) {
    for spot in &SPOTS {
        for (&id, &number) in IDS.iter().zip(&spot.numbers) {
            let mut tree = (spot.file)().tree();
            let block = Node::new(id, 0, Vec::new());
            tree.inside(spot.parent).insert(spot.at, block);
            let file = tree.written();
            let (place, count) = match number {
                0 => (file.bytes.len() as u64, file.headers.len()),
                10 => (102, 2),
                _ => spot.refused,
            };
            files.push(Known {
                name: spot.name,
                input: file.bytes,
                answer: (number, place, count),
            });
        }
    }
}

/// A number at a place of the file of 521 bytes, its size, and the answer. The
/// blocks have their headers at 36, 88, 102 and 491, and their chunks at 50,
/// 116 and 505. The image rectangles are (0,0)-(1,1) and stand at 373 and 389,
/// those of the mask are empty and stand at 410 and 426.
pub type Change = (&'static str, usize, usize, u32, (u32, u64, usize));

const CHANGES: [Change; 20] = [
    ("signature", 0, 1, 112, (3, 0, 0)),
    ("version 3.1", 34, 2, 1, (4, 32, 0)),
    ("mark of the bank", 88, 1, 0, (5, 88, 1)),
    ("image longer than 38", 46, 4, 39, (6, 36, 0)),
    ("initial length of the bank", 94, 4, 4, (6, 88, 1)),
    ("layer past its bank", 112, 4, 406, (6, 102, 2)),
    ("initial length 0 of the layer", 108, 4, 0, (0, 521, 4)),
    ("one byte left in the bank", 98, 4, 420, (6, 521, 4)),
    ("a header left in the bank", 98, 4, 433, (2, 521, 4)),
    ("bank of the largest length", 98, 4, u32::MAX, (2, 521, 4)),
    ("bank without its layer", 98, 4, 0, (10, 102, 2)),
    ("layer without its channel", 112, 4, 375, (10, 491, 3)),
    ("two bitmaps, one there", 487, 4, 0x2_0002, (10, 521, 4)),
    ("two layers announced", 86, 2, 2, (10, 521, 4)),
    ("compression 2", 67, 2, 2, (11, 50, 0)),
    ("bitmap 3", 513, 2, 3, (9, 491, 3)),
    ("width 30,000", 50, 4, 30_000, (0, 521, 4)),
    ("height 30,000", 54, 4, 30_000, (0, 521, 4)),
    ("plane length 1, no padding", 509, 4, 1, (0, 521, 4)),
    ("empty mask outside its border", 438, 4, 5, (0, 521, 4)),
];

/// Those that answer 8 names, each where its field stands; a rectangle at its
/// first corner, and of two fields that do not agree the later one.
const NAMED: [Change; 36] = [
    ("width 0", 50, 4, 0, (8, 50, 0)),
    ("width 30,001", 50, 4, 30_001, (8, 50, 0)),
    ("height 30,001", 54, 4, 30_001, (8, 54, 0)),
    ("metric 3", 66, 1, 3, (8, 66, 0)),
    ("metric 1 of resolution 0", 66, 1, 1, (8, 66, 0)),
    ("metric 3 and compression 3", 66, 3, 0x303, (8, 66, 0)),
    ("compression 3", 67, 2, 3, (8, 67, 0)),
    ("depth 5", 69, 2, 5, (8, 69, 0)),
    ("depth 5 and no planes", 69, 4, 5, (8, 69, 0)),
    ("depth 4 of 256 colours", 69, 2, 4, (8, 73, 0)),
    ("two planes", 71, 2, 2, (8, 71, 0)),
    ("255 colours", 73, 4, 255, (8, 73, 0)),
    ("grey 2", 77, 1, 2, (8, 77, 0)),
    ("no layer", 86, 2, 0, (8, 86, 0)),
    ("layer type 2", 372, 1, 2, (8, 372, 2)),
    (
        "left side of the border behind its right",
        373,
        4,
        2,
        (8, 373, 2),
    ),
    (
        "lower side of the border far off",
        385,
        4,
        32_768,
        (8, 373, 2),
    ),
    ("border inside the saved one", 373, 4, 1, (8, 389, 2)),
    ("left side of the saved one", 389, 4, u32::MAX, (8, 389, 2)),
    ("upper side of the saved one", 393, 4, 2, (8, 389, 2)),
    ("saved outside its border", 397, 4, 2, (8, 389, 2)),
    ("lower side of the saved one", 401, 4, 30_001, (8, 389, 2)),
    ("upper side of the mask", 414, 4, 1, (8, 410, 2)),
    ("right side of the saved mask", 434, 4, 30_001, (8, 426, 2)),
    ("six blend ranges", 445, 2, 6, (8, 445, 2)),
    ("no bitmap", 487, 2, 0, (8, 487, 2)),
    ("no bitmap and no channel", 487, 4, 0, (8, 487, 2)),
    ("two bitmaps and one channel", 487, 2, 2, (8, 489, 2)),
    ("two channels", 489, 2, 2, (8, 489, 2)),
    ("bitmap 6", 513, 2, 6, (8, 513, 3)),
    ("bitmap 6 and channel 4", 513, 4, 0x4_0006, (8, 513, 3)),
    ("channel 4", 515, 2, 4, (8, 515, 3)),
    ("bitmap 3 and channel 4", 513, 4, 0x4_0003, (8, 515, 3)),
    ("plane length 0", 509, 4, 0, (8, 509, 3)),
    ("plane length 3", 509, 4, 3, (8, 509, 3)),
    ("plane length 5", 509, 4, 5, (8, 509, 3)),
];

/// A file with one change.
pub fn changed(mut input: Vec<u8>, &(name, place, size, value, answer): &Change) -> Known {
    input[place..place + size].copy_from_slice(&value.to_le_bytes()[..size]);
    Known {
        name,
        input,
        answer,
    }
}

fn fields(files: &mut Vec<Known>) {
    let file = samples::grey521().bytes();
    let changes = CHANGES.iter().chain(&NAMED);
    files.extend(changes.map(|change| changed(file.clone(), change)));
    let mut input = samples::grey521().bytes();
    input.extend_from_slice(&[0; 5]);
    files.push(Known {
        name: "five bytes more",
        input,
        answer: (2, 521, 4),
    });
}

/// A picture of one pixel, with so many palettes of two entries before its bank
/// and after it.
fn pixel(depth: u16, grey: bool, before: usize, after: usize) -> Picture {
    let image = Image::new(depth, grey);
    let mut layer = Layer::new(Rectangle::new(0, 0, 1, 1));
    for colour in image.colour_codes() {
        layer = layer.with(0, colour, vec![0; 4]);
    }
    let mut picture = Picture::new(image);
    for _ in 0..before {
        picture = picture.palette(vec![[1, 2, 3, 4], [5, 6, 7, 8]]);
    }
    picture = picture.bank(vec![InBank::Layer(layer)]);
    for _ in 0..after {
        picture = picture.palette(vec![[1, 2, 3, 4], [5, 6, 7, 8]]);
    }
    picture
}

fn palettes(files: &mut Vec<Known>) {
    let mut push = |name, picture: Picture, answer| {
        files.push(Known {
            name,
            input: picture.bytes(),
            answer,
        })
    };
    push("palette first", pixel(1, false, 1, 0), (0, 547, 5));
    push("bank first", pixel(1, false, 0, 1), (0, 547, 5));
    push("no palette", pixel(1, false, 0, 0), (2, 521, 4));
    push("grey, a palette", pixel(8, true, 0, 1), (0, 547, 5));
    push("grey, two palettes", pixel(8, true, 1, 1), (7, 547, 5));
    push("depth 24", pixel(24, false, 0, 0), (0, 581, 6));
    push("depth 24, a palette", pixel(24, false, 1, 0), (0, 607, 7));
    push("depth 24, two", pixel(24, false, 2, 0), (7, 114, 2));
}

/// One channel or one layer more than announced.
fn surplus(files: &mut Vec<Known>) {
    let layer = || Layer::new(Rectangle::new(0, 0, 1, 1)).with(0, 0, vec![0; 4]);
    let mut twice = layer().with(0, 0, vec![0; 4]);
    twice.bitmaps = 2;
    let twice = Picture::new(Image::new(8, true)).bank(vec![InBank::Layer(twice)]);
    files.push(Known {
        name: "a channel twice",
        input: twice.bytes(),
        answer: (9, 521, 4),
    });
    let layers = (0..11).map(|_| InBank::Layer(layer())).collect();
    let mut eleven = Picture::new(Image::new(8, true)).bank(layers);
    eleven.image.layer_count = 10;
    files.push(Known {
        name: "eleven layers, ten announced",
        input: eleven.bytes(),
        answer: (9, 4_292, 22),
    });
}

/// Views of pictures of one pixel and of nothing, with no room and with ample
/// room, and with ramps around the right length.
fn views(cases: &mut Vec<Case>) {
    let pictures = [
        pixel(1, false, 1, 0),
        pixel(8, true, 1, 0),
        pixel(8, true, 0, 0),
        pixel(24, false, 0, 0),
        full_layer(256),
        full_layer(3),
    ];
    let mut inputs: Vec<Vec<u8>> = pictures.iter().map(Picture::bytes).collect();
    inputs.push(Vec::new());
    for input in &inputs {
        for room in [0, 8, ROOM_LIMIT] {
            for k in 0..2 {
                cases.extend(every_listing(room, k, input));
            }
            for ramp in [1_023, 1_024] {
                let input = input.clone();
                cases.push(Case::PaletteView { room, ramp, input });
            }
        }
    }
}

/// The file of 521 bytes with a name of so many bytes, and with each field that
/// no rule fixes away from zero.
fn full_layer(name: usize) -> Picture {
    let mut picture = samples::grey521();
    for layer in picture.layers_mut() {
        layer.name[..name].fill(b'N');
        layer.opacity = 200;
        layer.blending = 3;
        layer.visible = 1;
        layer.protected = 1;
        layer.group = 9;
        layer.linked = 1;
        layer.disabled = 1;
        layer.inverted = 1;
        layer.blend_count = 5;
        layer.blend_ranges = [90; 40];
    }
    picture
}
