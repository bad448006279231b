//! The layers of the files: their facts, and planes of made-up pixels.

use crate::psp::planes::packed_form;
use crate::psp::rectangle::Rectangle;
use crate::random::Random;
use crate::write::{Form, Image, Layer};

/// Bitmaps of a layer besides its colours. Limit: a user mask only together
/// with a transparency mask.
#[derive(Clone, Copy, PartialEq)]
pub enum Masks {
    Without,
    Transparency,
    TransparencyAndUser,
}

/// Names in no order: neither sorting them nor reading their numbers gives
/// the file's order.
pub fn names(count: usize, random: &mut Random) -> Vec<String> {
    let mut names: Vec<String> = (1..=count)
        .map(|number| match number % 5 {
            0 => format!("{}", number),
            1 => format!("the  layer no. {} (of \"{}\")", number, count),
            _ => format!("Layer {}", number),
        })
        .collect();
    random.shuffle(&mut names);
    names
}

/// The saved widths of a picture's layers.
#[derive(Clone, Copy)]
pub enum Widths {
    /// Limits: a multiple of 32 at 1 bit and of 4 at 8 bits, where padding needs
    /// no bytes. At 4 bits GIMP reads every width, so there it meets padding.
    Whole,
    /// Without padding, which GIMP expects: the first, and one more a layer.
    From(i64),
}

impl Widths {
    fn form(self) -> Form {
        match self {
            Widths::Whole => Form::Padded,
            Widths::From(_) => Form::Unpadded,
        }
    }

    /// The width of a plane of layer k, of pixels of so many bits.
    fn width(self, k: i64, bits: u64, most: u32, random: &mut Random) -> i64 {
        let step = match (self, bits) {
            (Widths::From(first), _) => return first + k,
            (Widths::Whole, 1) => 32,
            (Widths::Whole, 4) => 1,
            (Widths::Whole, _) => 4,
        };
        step * random.between(1, i64::from(most) / step)
    }
}

/// What the layers of a picture have in common.
pub struct Inside<'a> {
    pub image: &'a Image,
    pub colours: i64,
    pub masks: Masks,
    pub widths: Widths,
}

/// Layer k.
pub fn layer(k: i64, name: &str, inside: &Inside, random: &mut Random) -> Layer {
    let image = inside.image;
    let mut layer = Layer::new(saved_rectangle(k, 0, inside, random)).named(name);
    // Limits: the border's corner is (0,0), and the header's initial length is
    // the 375 of a new layer, not 0.
    layer.image_border = Rectangle::new(0, 0, image.width as i32, image.height as i32);
    layer.kind = u8::from(random.one_in(5));
    layer.opacity = random.pick(&[255, 255, 254, 128, 127, 1, 0]);
    layer.visible = u8::from(!random.one_in(3));
    layer.protected = u8::from(random.one_in(3));
    layer.blend_count = 5;
    if inside.masks == Masks::TransparencyAndUser {
        layer.mask_border = layer.image_border;
        layer.mask_saved = saved_rectangle(k, 2, inside, random);
    }
    for (bitmap, channel) in channels(image, inside.masks, random) {
        let plane = plane(&layer, inside, bitmap, random);
        let content = match image.compression {
            0 => plane,
            _ => packed_form(&plane),
        };
        layer = layer.with_rows(inside.widths.form(), bitmap, channel, content);
    }
    layer
}

/// Bitmap and channel of each of a layer's channels, in any order.
fn channels(image: &Image, masks: Masks, random: &mut Random) -> Vec<(u16, u16)> {
    let colours = image.colour_codes();
    let mut channels: Vec<(u16, u16)> = colours.map(|channel| (0, channel)).collect();
    if masks != Masks::Without {
        channels.push((1, 0));
    }
    if masks == Masks::TransparencyAndUser {
        channels.push((2, 0));
    }
    random.shuffle(&mut channels);
    channels
}

/// A part of the image for a bitmap of layer k. Limit: it is not empty.
fn saved_rectangle(k: i64, bitmap: u16, inside: &Inside, random: &mut Random) -> Rectangle {
    let image = inside.image;
    let bits = image.bits(bitmap);
    let width = inside.widths.width(k, bits, image.width, random);
    // Two rows at least: one would not show how long it is.
    let height = random.between(2, i64::from(image.height));
    let left = random.between(0, i64::from(image.width) - width);
    let top = random.between(0, i64::from(image.height) - height);
    let [left, top, right, bottom] =
        [left, top, left + width, top + height].map(|corner| corner as i32);
    Rectangle::new(left, top, right, bottom)
}

fn plane(layer: &Layer, inside: &Inside, bitmap: u16, random: &mut Random) -> Vec<u8> {
    let bits = inside.image.bits(bitmap) as usize;
    let width = layer.saved(bitmap).width() as usize;
    let height = layer.saved(bitmap).height() as usize;
    let row = layer.row_length(inside.image, bitmap, inside.widths.form()) as usize;
    pixels(width * height, inside.colours, random)
        .chunks(width)
        .flat_map(|line| joined(line, bits, row))
        .collect()
}

/// Stretches of one value and of several, so that run lengths have both kinds
/// of packets, and more than 127 bytes of each.
pub fn pixels(count: usize, colours: i64, random: &mut Random) -> Vec<u8> {
    let mut pixels = Vec::new();
    while pixels.len() < count {
        let steady = random.one_in(2);
        let first = random.between(0, colours - 1) as u8;
        for _ in 0..random.pick(&[1, 2, 3, 20, 150]) {
            let other = random.between(0, colours - 1) as u8;
            pixels.push(if steady { first } else { other });
        }
    }
    pixels.truncate(count);
    pixels
}

/// The bytes of a row: the leftmost pixel in the highest bits, then padding,
/// which no reader may take for pixels.
pub fn joined(pixels: &[u8], bits: usize, length: usize) -> Vec<u8> {
    let mut row = vec![0; (pixels.len() * bits + 7) / 8];
    for (x, pixel) in pixels.iter().enumerate() {
        let bit = x * bits;
        row[bit / 8] |= pixel << (8 - bits - bit % 8);
    }
    row.resize(length, 0xEE);
    row
}
