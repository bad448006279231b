//! Files of plain blocks: runs of skipped blocks in every sort of parent, and
//! layers of every depth with their channels in every order.

use crate::cases::forms::DEPTHS;
use crate::psp::rectangle::Rectangle;
use crate::write::{
    self, Alpha, Area, Form, Image, InAlphaBank, InBank, InLayer, Layer, Main, Picture, Skipped,
};

/// Small files that are accepted, by what is plain in them.
pub fn bases() -> [(&'static str, Picture); 8] {
    [
        ("runs before the bank", runs_before_the_bank()),
        ("runs behind the bank", runs_behind_the_bank()),
        ("runs in the bank", runs_in_the_bank()),
        ("runs in a layer", runs_in_a_layer()),
        ("runs in a selection", runs_in_a_selection()),
        ("runs around an alpha channel", runs_around_an_alpha()),
        ("three layers", three_layers(Image::new(8, true))),
        ("a paletted layer", one_layer((4, false), BOTH, 1)),
    ]
}

/// A bitmap and a channel.
pub type Code = (u16, u16);

/// The masks that a layer may have, and every code that a layer may expect.
const BOTH: &[u16] = &[1, 2];
const MASKS: [&[u16]; 4] = [&[], &[1], &[2], BOTH];
const CODES: [Code; 6] = [(0, 0), (0, 1), (0, 2), (0, 3), (1, 0), (2, 0)];

/// The codes of a layer's colours, and of these masks.
fn codes(depth: u16, masks: &[u16]) -> Vec<Code> {
    let mut codes = Vec::new();
    for colour in Image::new(depth, false).colour_codes() {
        codes.push((0, colour));
    }
    for &mask in masks {
        codes.push((mask, 0));
    }
    codes
}

/// Skipped blocks one behind another, empty ones and ones with data. Their
/// initial lengths are not judged.
fn run(ids: &[u16]) -> Vec<Skipped> {
    let mut run = Vec::new();
    for (turn, &id) in ids.iter().enumerate() {
        run.push(Skipped {
            id,
            initial: [14, 0, u32::MAX][turn % 3],
            data: ["~", "", "~BK"][turn % 3].into(),
        });
    }
    run
}

/// What every level skips.
fn unknown() -> Vec<Skipped> {
    run(&[12, 65_535, 13])
}

/// Puts such a run at each of these places, the last one first.
fn put_runs(inside: &mut Vec<InLayer>, places: &[usize]) {
    for &at in places {
        for block in unknown() {
            inside.insert(at, InLayer::Skipped(block));
        }
    }
}

/// A layer with channels of these codes, in their order. By turns its initial
/// length is 375 or 0, rows go without padding where they may, and nothing is
/// stored. Its rectangles differ, so that a wrong one shows.
fn layer(image: &Image, codes: &[Code], turn: usize) -> Layer {
    let mut layer = Layer::new(Rectangle::new(1, 1, 4, 3));
    layer.image_border = Rectangle::new(0, 0, 5, 5);
    layer.mask_border = Rectangle::new(-2, -2, 7, 7);
    layer.mask_saved = Rectangle::new(-1, -1, 1, 0);
    layer.initial = [375, 0][turn % 2];
    for (turn, &(bitmap, channel)) in (turn..).zip(codes) {
        let form = match image.bits(bitmap) {
            8 => Form::BOTH[turn / 2 % 2],
            _ => Form::Padded,
        };
        layer = layer.with_rows(form, bitmap, channel, vec![0x7E; turn % 3]);
    }
    layer
}

/// The image, with a palette where it wants one, and a bank.
fn banked(image: Image, bank: Vec<InBank>) -> Picture {
    let is_paletted = image.depth < 24 && image.grey == 0;
    let mut picture = Picture::new(image);
    if is_paletted {
        picture = picture.palette(vec![[0; 4]]);
    }
    picture.bank(bank)
}

fn layered((depth, grey): (u16, bool), codes: &[Code], turn: usize) -> Picture {
    let image = Image::new(depth, grey);
    let layer = layer(&image, codes, turn);
    banked(image, vec![InBank::Layer(layer)])
}

fn one_layer(sort: (u16, bool), masks: &[u16], turn: usize) -> Picture {
    layered(sort, &codes(sort.0, masks), turn)
}

/// A thumbnail and, at this depth, a palette are skipped there too.
fn runs_before_the_bank() -> Picture {
    let mut picture = one_layer((24, false), &[], 0);
    for block in run(&[1, 65_535, 2, 12, 9, 11, 10, 1, 12]) {
        picture.main.insert(0, Main::Skipped(block));
    }
    picture
}

fn runs_behind_the_bank() -> Picture {
    let mut picture = one_layer((8, true), &[], 1);
    for block in run(&[12, 65_535, 1, 10, 11, 12]) {
        picture.main.push(Main::Skipped(block));
    }
    picture
}

/// Before, between and behind two layers.
fn runs_in_the_bank() -> Picture {
    let image = Image::new(8, true);
    let mut bank = Vec::new();
    for turn in 0..3 {
        for block in unknown() {
            bank.push(InBank::Skipped(block));
        }
        if turn < 2 {
            bank.push(InBank::Layer(layer(&image, &codes(8, &[]), turn)));
        }
    }
    banked(image, bank)
}

/// Before, between and behind its channels.
fn runs_in_a_layer() -> Picture {
    let mut picture = layered((24, false), &[(0, 2), (1, 0), (0, 1), (0, 3)], 1);
    for layer in picture.layers_mut() {
        put_runs(&mut layer.inside, &[4, 2, 0]);
    }
    picture
}

/// An area with runs around its channel.
fn area(bitmap: u16) -> Area {
    let mut area = Area::new(Rectangle::new(0, 0, 3, 2)).with(bitmap, vec![0; 2]);
    put_runs(&mut area.inside, &[1, 0]);
    area
}

fn runs_in_a_selection() -> Picture {
    one_layer((8, true), &[], 0).selection(area(write::SELECTION))
}

/// Before and behind an alpha channel, and in it.
fn runs_around_an_alpha() -> Picture {
    let alpha = Alpha::new("varnish", area(write::ALPHA));
    let mut alphas = vec![InAlphaBank::Alpha(alpha)];
    for block in unknown() {
        alphas.insert(0, InAlphaBank::Skipped(block.clone()));
        alphas.push(InAlphaBank::Skipped(block));
    }
    one_layer((8, true), &[], 0).alphas(alphas)
}

/// With no mask, with one and with both, which do not come last.
fn three_layers(image: Image) -> Picture {
    let mut bank = Vec::new();
    for (turn, masks) in [&[][..], &[2], BOTH].iter().enumerate() {
        let mut codes = codes(image.depth, masks);
        codes.rotate_right(turn);
        bank.push(InBank::Layer(layer(&image, &codes, turn)));
    }
    banked(image, bank)
}

/// A layer of every depth, with every choice of masks and its channels in every
/// order; and more than one where there may be.
pub fn layers() -> Vec<Picture> {
    let mut pictures = Vec::new();
    for sort @ (depth, grey) in DEPTHS {
        for masks in MASKS {
            for order in orders(&codes(depth, masks)) {
                pictures.push(layered(sort, &order, pictures.len()));
            }
        }
        if grey || depth == 24 {
            pictures.push(three_layers(Image::new(depth, grey)));
        }
    }
    pictures
}

fn orders(codes: &[Code]) -> Vec<Vec<Code>> {
    let Some((first, others)) = codes.split_first() else {
        return vec![Vec::new()];
    };
    let mut orders_of_all = Vec::new();
    for order in orders(others) {
        for at in 0..=order.len() {
            let mut longer = order.clone();
            longer.insert(at, *first);
            orders_of_all.push(longer);
        }
    }
    orders_of_all
}

/// Layers that do not have the channels which they announce: one is left out, or
/// is there besides, or is another. Each ends there, or a skipped block follows.
pub fn other_channels() -> Vec<Picture> {
    let mut pictures = Vec::new();
    for sort @ (depth, _) in DEPTHS {
        for masks in MASKS {
            let announced = codes(depth, masks);
            for others in others(&announced) {
                let mut picture = layered(sort, &others, pictures.len());
                for layer in picture.layers_mut() {
                    layer.channels = announced.len() as u16;
                    layer.bitmaps = 1 + masks.len() as u16;
                }
                pictures.push(picture.clone());
                for layer in picture.layers_mut() {
                    *layer = layer.clone().with_skipped(12, 0, Vec::new());
                }
                pictures.push(picture);
            }
        }
    }
    pictures
}

fn others(announced: &[Code]) -> Vec<Vec<Code>> {
    let mut all = Vec::new();
    for at in 0..announced.len() {
        let mut fewer = announced.to_vec();
        fewer.remove(at);
        all.push(fewer);
    }
    for code in CODES {
        for at in 0..=announced.len() {
            let mut codes = announced.to_vec();
            codes.truncate(at);
            codes.push(code);
            codes.extend(announced.iter().skip(at + 1));
            all.push(codes);
        }
    }
    all
}
