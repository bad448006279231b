//! Every beginning of files that `sweeps` does not have: a palette with both
//! masks, with ample room and with a table that fills up on the way, a layer
//! that has a channel twice, and files with wrong fields. More input never takes
//! anything back, and the checks of this program hold the reference to that on
//! each of them.

use crate::case::{Case, ROOM_LIMIT};
use crate::psp::rectangle::Rectangle;
use crate::samples;
use crate::write::{self, Alpha, Area, Form, Image, InAlphaBank, InBank, InLayer, Layer, Picture};

pub fn all(cases: &mut Vec<Case>) {
    for (room, whole) in files() {
        for length in 0..=whole.len() {
            cases.push(Case::Listing {
                room,
                input: whole[..length].to_vec(),
            });
        }
    }
}

/// Files, each with a room.
pub fn files() -> [(u32, Vec<u8>); 7] {
    let [image, layer, channel, alpha] = wrong_fields();
    [
        (ROOM_LIMIT, masks().bytes()),
        (3, masks().bytes()),
        (ROOM_LIMIT, twice().bytes()),
        (ROOM_LIMIT, image),
        (ROOM_LIMIT, layer),
        (ROOM_LIMIT, channel),
        (ROOM_LIMIT, alpha),
    ]
}

/// Two wrong fields in a chunk, and blocks behind it: the grey flag and the
/// layer count of an image; the saved rectangle and the blend ranges of the
/// second layer; codes and plane length of a layer's second channel; the saved
/// rectangle and both counts of the second alpha channel, in a file that has its
/// selection before the bank and its alpha channels behind it.
pub fn wrong_fields() -> [Vec<u8>; 4] {
    let mut image = samples::grey521();
    image.image.grey = 2;
    image.image.layer_count = 65;
    let layer = || Layer::new(Rectangle::new(0, 0, 5, 5)).with(0, 0, vec![0; 40]);
    let mut wrong = layer();
    wrong.image_saved = Rectangle::new(0, 0, 6, 5);
    wrong.blend_count = 6;
    let layers = vec![InBank::Layer(layer()), InBank::Layer(wrong)];
    let layers = Picture::new(self::image(true))
        .bank(layers)
        .skipped(12, 0, Vec::new());
    let mut channels = masks();
    for layer in channels.layers_mut() {
        if let Some(InLayer::Channel(channel)) = layer.inside.get_mut(1) {
            channel.channel = 4;
            channel.plane = Some(41);
        }
    }
    [image, layers, channels, alphas()].map(|picture| picture.bytes())
}

/// A selection of five rows of eight bytes, a layer without pixels, an alpha
/// channel of five rows without padding, and another that is wrong.
fn alphas() -> Picture {
    let square = || Area::new(Rectangle::new(0, 0, 5, 5));
    let mut wrong = square();
    wrong.saved = Rectangle::new(0, 0, 5, 6);
    wrong.bitmaps = 0;
    wrong.channels = 0;
    let good = square().with_rows(Form::Unpadded, write::ALPHA, vec![0; 25]);
    let alphas = [Alpha::new("good", good), Alpha::new("wrong", wrong)];
    Picture::new(image(true))
        .selection(square().with(write::SELECTION, vec![0; 40]))
        .bank(vec![InBank::Layer(Layer::new(Rectangle::default()).with(
            0,
            0,
            Vec::new(),
        ))])
        .alphas(alphas.map(InAlphaBank::Alpha).to_vec())
}

fn image(grey: bool) -> Image {
    Image {
        width: 5,
        height: 5,
        ..Image::new(8, grey)
    }
}

/// A colour plane of five rows of eight bytes, a transparency mask alike, an
/// empty user mask; two skipped blocks behind the bank.
fn masks() -> Picture {
    let layer = Layer::new(Rectangle::new(0, 0, 5, 5))
        .named("masks")
        .with(0, 0, vec![0; 40])
        .with(1, 0, vec![0; 40])
        .with(2, 0, Vec::new());
    Picture::new(image(false))
        .palette(vec![[0; 4], [0; 4]])
        .bank(vec![InBank::Layer(layer)])
        .skipped(12, 0, Vec::new())
        .skipped(12, 0, Vec::new())
}

/// A layer of two bitmaps whose second channel has the codes of its first.
fn twice() -> Picture {
    let mut layer = Layer::new(Rectangle::new(0, 0, 5, 5))
        .named("twice")
        .with(0, 0, vec![0; 40])
        .with(0, 0, vec![0; 40]);
    layer.bitmaps = 2;
    Picture::new(image(true)).bank(vec![InBank::Layer(layer)])
}
