//! Selections and alpha channels: how many there are against how many are
//! announced, which fields and channels they have, where they stand among the
//! main blocks, their rows and their names. The files of `known` have answers
//! worked out by hand.

use super::forms::sizes;
use super::known::{changed, Change, Known};
use super::sweeps::listing;
use super::{every_listing, views_of};
use crate::case::{Case, ROOM_LIMIT};
use crate::psp::rectangle::Rectangle;
use crate::samples;
use crate::write::{self, Alpha, Area, Form, Image, InAlphaBank, InBank, InLayer, Layer, Picture};

pub fn all(cases: &mut Vec<Case>) {
    plane_lengths(cases);
    full_tables(cases);
    names(cases);
    views(cases);
}

/// The file of 521 bytes with a selection and an alpha channel of its one pixel
/// behind it: 953 bytes.
pub fn small() -> Picture {
    samples::grey521()
        .selection(pixel(write::SELECTION))
        .alphas(alphas(1))
}

/// One pixel in a padded row.
fn pixel(bitmap: u16) -> Area {
    Area::new(Rectangle::new(0, 0, 1, 1)).with(bitmap, vec![0; 4])
}

fn alphas(count: usize) -> Vec<InAlphaBank> {
    let alpha = |_| InAlphaBank::Alpha(Alpha::new("", pixel(write::ALPHA)));
    (0..count).map(alpha).collect()
}

pub fn known(files: &mut Vec<Known>) {
    let file = small().bytes();
    let changes = CHANGES.iter().chain(&NAMED);
    files.extend(changes.map(|change| changed(file.clone(), change)));
    alpha_counts(files);
    channel_counts(files);
    second_ones(files);
    orders(files);
}

/// In the file of 953 bytes. The headers of the selection, its channel, the
/// alpha bank, the alpha channel and its channel stand at 521, 571, 601, 617 and
/// 923, their chunks at 535, 585, 615, 631 and 937; the totals are 66, 16, 338,
/// 322 and 16.
const CHANGES: [Change; 37] = [
    ("nothing", 0, 1, 0x50, (0, 953, 9)),
    ("mark of the selection", 521, 1, 0, (5, 521, 4)),
    ("initial length of the selection", 527, 4, 35, (6, 521, 4)),
    ("initial length 0 of it", 527, 4, 0, (6, 521, 4)),
    ("selection shorter than its chunk", 531, 4, 35, (6, 521, 4)),
    ("selection without its channel", 531, 4, 36, (10, 571, 5)),
    ("channel past the selection", 531, 4, 65, (6, 571, 5)),
    ("one byte left in the selection", 531, 4, 67, (6, 601, 6)),
    ("thirteen left in the selection", 531, 4, 79, (6, 601, 6)),
    ("alpha bank in the selection", 531, 4, 404, (7, 601, 6)),
    ("selection without an end", 531, 4, u32::MAX, (7, 601, 6)),
    ("channel longer than it stores", 585, 4, 3, (6, 571, 5)),
    ("layer's bitmap in the selection", 593, 2, 0, (9, 571, 5)),
    ("mask's bitmap in the selection", 593, 2, 2, (9, 571, 5)),
    ("alpha's bitmap in the selection", 593, 2, 4, (9, 571, 5)),
    ("red in the selection", 595, 2, 1, (9, 571, 5)),
    ("selection without padding", 589, 4, 1, (0, 953, 9)),
    ("mark of the alpha bank", 601, 1, 0, (5, 601, 6)),
    ("initial length of the alpha bank", 607, 4, 3, (6, 601, 6)),
    ("initial length 0 of the bank", 607, 4, 0, (6, 601, 6)),
    ("alpha bank shorter than its chunk", 611, 4, 1, (6, 601, 6)),
    ("alpha bank without its alpha", 611, 4, 2, (10, 617, 7)),
    ("thirteen left in the alpha bank", 611, 4, 351, (6, 953, 9)),
    ("header left in the alpha bank", 611, 4, 352, (2, 953, 9)),
    ("alpha bank without an end", 611, 4, u32::MAX, (2, 953, 9)),
    ("no alpha announced", 615, 2, 0, (9, 617, 7)),
    ("two alphas announced", 615, 2, 2, (10, 953, 9)),
    ("65,535 alphas announced", 615, 2, 65_535, (10, 953, 9)),
    ("initial length of the alpha", 623, 4, 291, (6, 617, 7)),
    ("initial length 0 of the alpha", 623, 4, 0, (6, 617, 7)),
    ("alpha shorter than its chunk", 627, 4, 291, (6, 617, 7)),
    ("alpha without its channel", 627, 4, 292, (10, 923, 8)),
    ("alpha past its bank", 627, 4, 323, (6, 617, 7)),
    ("layer's bitmap in the alpha", 945, 2, 0, (9, 923, 8)),
    ("selection's bitmap in the alpha", 945, 2, 3, (9, 923, 8)),
    ("red in the alpha", 947, 2, 1, (9, 923, 8)),
    ("alpha without padding", 941, 4, 1, (0, 953, 9)),
];

/// Those that answer 8 names. The rectangles are (0,0)-(1,1) and stand at 535 and
/// 551, 887 and 903, the counts behind them.
const NAMED: [Change; 30] = [
    ("selection's left behind its right", 535, 4, 2, (8, 535, 4)),
    ("its lower side far off", 547, 4, 32_768, (8, 535, 4)),
    ("its upper side far off", 539, 4, 0xFFFF_7FFF, (8, 535, 4)),
    ("its border inside the saved one", 535, 4, 1, (8, 551, 4)),
    ("its saved left off", 551, 4, u32::MAX, (8, 551, 4)),
    ("its saved upper side off", 555, 4, 2, (8, 551, 4)),
    ("its saved right past the border", 559, 4, 2, (8, 551, 4)),
    ("its saved lower side", 563, 4, 30_001, (8, 551, 4)),
    ("nothing saved, and a plane", 559, 4, 0, (8, 589, 5)),
    ("no bitmap in it", 567, 2, 0, (8, 567, 4)),
    ("two bitmaps in it", 567, 2, 2, (8, 567, 4)),
    ("no bitmap and no channel in it", 567, 4, 0, (8, 567, 4)),
    ("no channel in it", 569, 2, 0, (8, 569, 4)),
    ("two channels in it", 569, 2, 2, (8, 569, 4)),
    ("two of each in it", 567, 4, 0x2_0002, (8, 567, 4)),
    ("bitmap 6 in it", 593, 2, 6, (8, 593, 5)),
    ("channel 4 in it", 595, 2, 4, (8, 595, 5)),
    (
        "layer's bitmap and channel 4",
        593,
        4,
        0x4_0000,
        (8, 595, 5),
    ),
    ("plane length 3 in it", 589, 4, 3, (8, 589, 5)),
    ("alpha's left behind its right", 887, 4, 2, (8, 887, 7)),
    ("its right far off", 895, 4, 32_768, (8, 887, 7)),
    ("its border inside its saved one", 891, 4, 1, (8, 903, 7)),
    ("its saved right past it", 911, 4, 2, (8, 903, 7)),
    ("nothing saved of it, and a plane", 915, 4, 0, (8, 941, 8)),
    ("no bitmap in the alpha", 919, 2, 0, (8, 919, 7)),
    ("256 bitmaps in the alpha", 919, 2, 257, (8, 919, 7)),
    ("no channel in the alpha", 921, 2, 0, (8, 921, 7)),
    ("256 channels in the alpha", 921, 2, 257, (8, 921, 7)),
    ("bitmap 6 in the alpha", 945, 2, 6, (8, 945, 8)),
    ("plane length 5 in the alpha", 941, 4, 5, (8, 941, 8)),
];

/// Zero to three alpha channels announced, and as many there. The bank's chunk
/// ends at 537, and each alpha channel is 336 bytes and two entries.
fn alpha_counts(files: &mut Vec<Known>) {
    for announced in 0..=3 {
        for present in 0..=3 {
            let mut picture = samples::grey521().alphas(alphas(present));
            if let Some(write::Main::AlphaBank(bank)) = picture.main.last_mut() {
                bank.announced = announced as u16;
            }
            let number = match present.cmp(&announced) {
                std::cmp::Ordering::Less => 10,
                std::cmp::Ordering::Equal => 0,
                std::cmp::Ordering::Greater => 9,
            };
            let passed = present.min(announced);
            files.push(Known {
                name: "alphas announced and there",
                input: picture.bytes(),
                answer: (number, 537 + 336 * passed as u64, 5 + 2 * passed),
            });
        }
    }
}

/// No channel, one, and two of the same codes.
fn channel_counts(files: &mut Vec<Known>) {
    let area = |bitmap, channels| {
        let mut area = pixel(bitmap);
        area.inside = vec![area.inside[0].clone(); channels];
        area
    };
    // The ends of the chunk and of the first channel.
    let answers = |chunk, entries| {
        [
            (10, chunk, entries),
            (0, chunk + 30, entries + 1),
            (9, chunk + 30, entries + 1),
        ]
    };
    for (channels, answer) in answers(571, 5).into_iter().enumerate() {
        let selection = area(write::SELECTION, channels);
        files.push(Known {
            name: "channels of a selection",
            input: samples::grey521().selection(selection).bytes(),
            answer,
        });
    }
    for (channels, answer) in answers(843, 6).into_iter().enumerate() {
        let alpha = Alpha::new("", area(write::ALPHA, channels));
        let bank = vec![InAlphaBank::Alpha(alpha)];
        files.push(Known {
            name: "channels of an alpha channel",
            input: samples::grey521().alphas(bank).bytes(),
            answer,
        });
    }
}

/// A second selection and a second alpha bank, with the bank before both, between
/// them, and behind both.
fn second_ones(files: &mut Vec<Known>) {
    type Add = fn(Picture) -> Picture;
    let selection: Add = |picture| picture.selection(pixel(write::SELECTION));
    let alphas: Add = |picture| picture.alphas(Vec::new());
    let layer = || Layer::new(Rectangle::new(0, 0, 1, 1)).with(0, 0, vec![0; 4]);
    // Bytes and entries of the first; the bank has 433 and three.
    for (name, add, (bytes, entries)) in [
        ("a second selection", selection, (80, 2)),
        ("a second alpha bank", alphas, (16, 1)),
    ] {
        for before in 0..3 {
            let mut picture = Picture::new(Image::new(8, true));
            for turn in 0..3 {
                picture = if turn == before {
                    picture.bank(vec![InBank::Layer(layer())])
                } else {
                    add(picture)
                };
            }
            let (place, count) = match before {
                2 => (88 + bytes, 1 + entries),
                _ => (88 + bytes + 433, 1 + entries + 3),
            };
            files.push(Known {
                name,
                input: picture.bytes(),
                answer: (7, place, count),
            });
        }
    }
}

/// Palette, bank, selection and alpha bank in every order.
fn orders(files: &mut Vec<Known>) {
    let layer = Layer::new(Rectangle::new(0, 0, 1, 1)).with(0, 0, vec![0; 4]);
    let base = Picture::new(Image::new(4, false))
        .palette(vec![[1, 2, 3, 4], [5, 6, 7, 8]])
        .bank(vec![InBank::Layer(layer)])
        .selection(pixel(write::SELECTION))
        .alphas(alphas(1));
    for order in 0..4usize.pow(4) {
        let order = [order / 64, order / 16, order / 4, order].map(|digit| digit % 4);
        if !(0..4).all(|main| order.contains(&main)) {
            continue;
        }
        let mut picture = base.clone();
        picture.main = order.iter().map(|&at| base.main[at].clone()).collect();
        files.push(Known {
            name: "every order",
            input: picture.bytes(),
            answer: (0, 979, 10),
        });
    }
}

/// The lengths of both forms of a row and one off each, in a selection's channel
/// and in an alpha channel's: pixels are of a byte whatever the image's depth.
fn plane_lengths(cases: &mut Vec<Case>) {
    for depth in [1, 24] {
        let sizes = sizes();
        for (&one, &other) in sizes.iter().zip(sizes.iter().rev()) {
            let mut picture = picture(depth, one, other);
            for at in 0..2 {
                for form in Form::BOTH {
                    let length = picture.areas_mut()[at].plane_length(form) as u32;
                    for near in [length.wrapping_sub(1), length, length + 1] {
                        let mut changed = picture.clone();
                        set_length(changed.areas_mut()[at], near);
                        cases.push(listing(changed.bytes()));
                    }
                }
            }
        }
    }
}

/// A picture with a selection and an alpha channel of other sides than the
/// layer's and each other's. The listing looks at no content, so none is there.
fn picture(depth: u16, selection: [i32; 2], alpha: [i32; 2]) -> Picture {
    let image = Image::new(depth, false);
    let mut layer = Layer::new(Rectangle::new(0, 0, 13, 5));
    for channel in image.colour_codes() {
        layer = layer.with(0, channel, Vec::new());
    }
    let area = |bitmap, [wide, high]: [i32; 2]| {
        let area = Area::new(Rectangle::new(0, 0, wide, high));
        area.with(bitmap, Vec::new())
    };
    let alpha = Alpha::new("", area(write::ALPHA, alpha));
    Picture::new(image)
        .palette(vec![[0; 4]])
        .selection(area(write::SELECTION, selection))
        .bank(vec![InBank::Layer(layer)])
        .alphas(vec![InAlphaBank::Alpha(alpha)])
}

fn set_length(area: &mut Area, length: u32) {
    for part in area.inside.iter_mut() {
        if let InLayer::Channel(channel) = part {
            channel.plane = Some(length);
        }
    }
}

/// A table that is full at each block, as the block's own bytes arrive: presence
/// comes before the table, and the table before what is inside.
fn full_tables(cases: &mut Vec<Case>) {
    for picture in [small(), samples::alphas(), samples::early()] {
        let file = picture.tree().written();
        let next = file.headers.iter().skip(1).map(|header| header.place);
        let ends = next.chain([file.bytes.len()]);
        for ((room, header), end) in (0..).zip(&file.headers).zip(ends) {
            for length in [header.place + 14, end - 1, end] {
                let input = file.bytes[..length].to_vec();
                cases.push(Case::Listing { room, input });
            }
        }
    }
}

/// Names that end everywhere.
fn names(cases: &mut Vec<Case>) {
    for length in 0..=256 {
        let mut picture = samples::grey521().alphas(alphas(3));
        if let Some(write::Main::AlphaBank(bank)) = picture.main.last_mut() {
            for alpha in bank.alphas_mut() {
                alpha.name = [0xC3; 256];
                if let Some(byte) = alpha.name.get_mut(length) {
                    *byte = 0;
                }
            }
        }
        let (room, input) = (ROOM_LIMIT, picture.bytes());
        let k = (length % 3) as u32;
        cases.push(Case::AlphaName { room, k, input });
    }
}

/// Views of files with each, one or neither of them, behind eleven layers, of
/// refused ones, and of nothing, with no room, too little, just enough and ample
/// room.
fn views(cases: &mut Vec<Case>) {
    let mut wrong = small();
    wrong.areas_mut()[1].bitmaps = 2;
    let mut inputs: Vec<Vec<u8>> = [
        small(),
        samples::alphas(),
        samples::early(),
        samples::grey521().alphas(Vec::new()),
        samples::grey521().selection(pixel(write::SELECTION)),
        samples::grey521(),
        samples::layers11()
            .selection(pixel(write::SELECTION))
            .alphas(alphas(3)),
        wrong,
    ]
    .iter()
    .map(Picture::bytes)
    .collect();
    let mut cut = small().bytes();
    cut.pop();
    inputs.extend([cut, Vec::new()]);
    for input in &inputs {
        for room in [0, 8, 9, ROOM_LIMIT] {
            cases.extend(every_listing(room, 0, input));
            for k in [1, 2, 3, u32::MAX] {
                cases.extend(views_of(room, k, input));
            }
        }
    }
}
