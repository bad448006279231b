//! Fixed valid files: the samples that the program writes out, and the bases
//! of the systematic cases.

mod mug;

pub use mug::{mug, narrow_mug, varnished_mug};

use crate::psp::planes::packed_form;
use crate::psp::rectangle::Rectangle;
use crate::write::{self, Alpha, Area, Form, Image, InAlphaBank, InBank, Layer, Picture, Skipped};

/// The names that `sample` knows.
pub const NAMES: [&str; 14] = [
    "grey521",
    "layers11",
    "palette",
    "bits1",
    "bits4",
    "greys",
    "skips",
    "masks",
    "alphas",
    "early",
    "mug",
    "mug-padded",
    "mug-unpadded",
    "mug-varnish",
];

pub fn sample(name: &str) -> Option<Picture> {
    match name {
        "grey521" => Some(grey521()),
        "layers11" => Some(layers11()),
        "palette" => Some(palette()),
        "bits1" => Some(bits1()),
        "bits4" => Some(bits4()),
        "greys" => Some(greys()),
        "skips" => Some(skips()),
        "masks" => Some(masks()),
        "alphas" => Some(alphas()),
        "early" => Some(early()),
        "mug" => Some(mug()),
        "mug-padded" => Some(narrow_mug(Form::Padded)),
        "mug-unpadded" => Some(narrow_mug(Form::Unpadded)),
        "mug-varnish" => Some(varnished_mug()),
        _ => None,
    }
}

fn unit_square() -> Rectangle {
    Rectangle::new(0, 0, 1, 1)
}

/// Document 01's file of 521 bytes.
pub fn grey521() -> Picture {
    let layer = Layer::new(unit_square()).with(0, 0, vec![0; 4]);
    Picture::new(Image::new(8, true)).bank(vec![InBank::Layer(layer)])
}

/// Eleven layers whose names are in no order: neither sorting the names nor
/// reading their numbers gives the file's order. 24 bits, run lengths, each
/// layer with a transparency mask.
pub fn layers11() -> Picture {
    let order = [2, 10, 1, 11, 3, 9, 4, 8, 5, 7, 6];
    let mut image = Image {
        width: 16,
        height: 12,
        compression: 1,
        ..Image::new(24, false)
    };
    image.resolution = 72.0f64.to_bits();
    image.metric = 1;
    image.active_layer = 3;
    let layers = order.iter().map(|&number| {
        let saved = Rectangle::new(number % 5, number % 3, number % 5 + 6, number % 3 + 4);
        let mut layer = Layer::new(saved).named(&format!("Layer {}", number));
        layer.image_border = Rectangle::new(0, 0, 16, 12);
        layer.opacity = 255;
        layer.visible = 1;
        layer.blend_count = 5;
        for colour in 1..=3u8 {
            // Rows of 6 pixels and 2 bytes of padding.
            let plane: Vec<u8> = (0..4u8)
                .flat_map(|line| {
                    let mut row = vec![number as u8 * 16 + colour * 4 + line; 6];
                    row.extend_from_slice(&[0, 0]);
                    row
                })
                .collect();
            layer = layer.with(0, u16::from(colour), packed_form(&plane));
        }
        let mask: Vec<u8> = (0..4)
            .flat_map(|_| [255, 255, 255, 128, 64, 0, 0, 0])
            .collect();
        InBank::Layer(layer.with(1, 0, packed_form(&mask)))
    });
    Picture::new(image).bank(layers.collect())
}

/// 8 bits with a palette of four entries, a thumbnail before it.
pub fn palette() -> Picture {
    let image = Image {
        width: 3,
        height: 2,
        ..Image::new(8, false)
    };
    let plane = vec![0, 1, 2, 0, 3, 2, 1, 0];
    let layer = Layer::new(Rectangle::new(0, 0, 3, 2))
        .named("Background")
        .with(0, 0, plane);
    Picture::new(image)
        .skipped(9, 24, vec![7; 5])
        .palette(vec![
            [0, 0, 0, 0],
            [255, 0, 0, 0],
            [0, 255, 0, 0],
            [0, 0, 255, 9],
        ])
        .bank(vec![InBank::Layer(layer)])
}

/// 1 bit, 33 pixels wide, with the palette after the bank.
pub fn bits1() -> Picture {
    let image = Image {
        width: 33,
        height: 2,
        compression: 1,
        ..Image::new(1, false)
    };
    let plane = [
        0xFF, 0xFF, 0xFF, 0xFF, 0x80, 0, 0, 0, 1, 2, 3, 4, 0x80, 0, 0, 0,
    ];
    let saved = Rectangle::new(0, 0, 33, 2);
    let layer = Layer::new(saved)
        .named("One bit")
        .with(0, 0, packed_form(&plane));
    Picture::new(image)
        .bank(vec![InBank::Layer(layer)])
        .palette(vec![[0; 4], [255; 4]])
}

/// 4 bits with a full palette and a user mask whose rectangle is its own.
pub fn bits4() -> Picture {
    let mut image = Image {
        width: 9,
        height: 3,
        ..Image::new(4, false)
    };
    image.metric = 2;
    image.resolution = 28.5f64.to_bits();
    let mut layer = Layer::new(Rectangle::new(0, 0, 9, 3)).named("Four bits");
    layer.initial = 0;
    layer.mask_border = Rectangle::new(-5, -5, 20, 20);
    layer.mask_saved = Rectangle::new(-2, -1, 3, 1);
    let layer = layer.with(2, 0, vec![9; 16]).with(0, 0, (0..24).collect());
    let entries = (0..16u8)
        .map(|value| [value * 17, value, 255 - value, 0])
        .collect();
    Picture::new(image)
        .palette(entries)
        .bank(vec![InBank::Layer(layer)])
}

/// Three grey layers: all masks, an empty saved rectangle, a long name; and
/// a palette, which a grey image may have.
pub fn greys() -> Picture {
    let image = Image {
        width: 4_096,
        height: 1,
        active_layer: 0xFFFF_FFFE,
        ..Image::new(8, true)
    };
    let mut masks = Layer::new(Rectangle::new(-3, 2, 2, 4)).named("");
    masks.mask_border = Rectangle::new(-32_768, -32_768, 32_767, 32_767);
    masks.mask_saved = Rectangle::new(100, 100, 102, 101);
    masks.kind = 1;
    let masks = masks
        .with(1, 0, vec![1; 16])
        .with(0, 0, vec![2; 16])
        .with(2, 0, vec![3; 4]);
    let mut empty = Layer::new(Rectangle::new(5, 5, 9, 9)).named("Empty");
    empty.image_saved = Rectangle::new(40, 7, 40, 9);
    let empty = empty.with(0, 0, Vec::new());
    let mut long = Layer::new(Rectangle::new(0, 0, 2, 1));
    long.name = [b'n'; 256];
    long.visible = 255;
    long.protected = 2;
    let long = long.with(0, 0, vec![4; 4]);
    let layers = vec![masks, empty, long]
        .into_iter()
        .map(InBank::Layer)
        .collect();
    Picture::new(image).palette(vec![[1, 2, 3, 4]]).bank(layers)
}

/// A colour layer with both masks, the user mask first and of its own size.
pub fn masks() -> Picture {
    let image = Image {
        width: 5,
        height: 2,
        compression: 1,
        ..Image::new(24, false)
    };
    let mut layer = Layer::new(Rectangle::new(1, 0, 3, 1)).named("Masked");
    layer.mask_border = Rectangle::new(-4, -4, 8, 8);
    layer.mask_saved = Rectangle::new(-1, 0, 4, 2);
    let mask = packed_form(&[255, 255, 255, 0, 0, 0, 0, 0, 9, 8, 7, 6, 5, 0, 0, 0]);
    let layer = layer
        .with(2, 0, mask)
        .with(0, 1, vec![4, 1, 2, 0, 0])
        .with(1, 0, vec![4, 255, 128, 0, 0])
        .with(0, 3, vec![132, 3])
        .with(0, 2, vec![4, 5, 6, 0, 0]);
    Picture::new(image).bank(vec![InBank::Layer(layer)])
}

/// 24 bits, and behind the bank a selection and two alpha channels: rows with
/// padding and without, a saved rectangle without width, a name of 256 bytes.
/// A skipped block stands in each sort of parent.
pub fn alphas() -> Picture {
    let image = Image {
        width: 6,
        height: 4,
        ..Image::new(24, false)
    };
    let canvas = Rectangle::new(0, 0, 6, 4);
    let layer = Layer::new(unit_square())
        .with(0, 1, vec![1, 0, 0, 0])
        .with(0, 2, vec![2, 0, 0, 0])
        .with(0, 3, vec![3, 0, 0, 0]);
    let selection = Area::new(Rectangle::new(1, 1, 4, 3))
        .within(canvas)
        .with_skipped(12, 5, vec![1, 2])
        .with_rows(Form::Unpadded, write::SELECTION, vec![9, 8, 7, 6, 5, 4]);
    let rows = vec![1, 2, 3, 4, 5, 0, 0, 0, 6, 7, 8, 9, 255, 0, 0, 0];
    let varnish = Area::new(Rectangle::new(-1, 1, 4, 3))
        .within(Rectangle::new(-2, 0, 6, 4))
        .with(write::ALPHA, rows);
    let narrow = Area::new(Rectangle::new(3, 1, 3, 4))
        .with(write::ALPHA, Vec::new())
        .with_skipped(1_000, 0, vec![0x7E; 3]);
    let mut narrow = Alpha::new("", narrow);
    narrow.name = [b'a'; 256];
    let unknown = Skipped {
        id: 13,
        initial: 292,
        data: vec![7],
    };
    Picture::new(image)
        .bank(vec![InBank::Layer(layer)])
        .selection(selection)
        .alphas(vec![
            InAlphaBank::Alpha(Alpha::new("Varnish", varnish)),
            InAlphaBank::Skipped(unknown),
            InAlphaBank::Alpha(narrow),
        ])
}

/// Grey, run lengths; two alpha channels, then a selection, all before the bank.
/// One alpha channel has no name, and a saved rectangle without height, away
/// from its border.
pub fn early() -> Picture {
    let image = Image {
        width: 4,
        height: 4,
        compression: 1,
        ..Image::new(8, true)
    };
    let spot = Area::new(Rectangle::new(0, 0, 3, 3))
        .within(Rectangle::new(0, 0, 4, 4))
        .with_rows(
            Form::Unpadded,
            write::ALPHA,
            packed_form(&[1, 2, 3, 3, 3, 3, 3, 2, 1]),
        );
    let flat = Area::new(Rectangle::new(100, -7, 103, -7))
        .within(Rectangle::new(1, 1, 1, 1))
        .with(write::ALPHA, Vec::new());
    let selected = packed_form(&[255, 255, 0, 0, 255, 255, 0, 0]);
    let selection = Area::new(Rectangle::new(-3, 2, -1, 4))
        .within(Rectangle::new(-32_768, -32_768, 32_767, 32_767))
        .with(write::SELECTION, selected);
    let layer = Layer::new(unit_square()).with(0, 0, vec![4, 5, 0, 0, 0]);
    Picture::new(image)
        .alphas(vec![
            InAlphaBank::Alpha(Alpha::new("Spot", spot)),
            InAlphaBank::Alpha(Alpha::new("", flat)),
        ])
        .selection(selection)
        .bank(vec![InBank::Layer(layer)])
}

/// Skipped blocks wherever they are permitted, a palette at 24 bits among
/// them.
pub fn skips() -> Picture {
    let image = Image {
        width: 2,
        height: 2,
        ..Image::new(24, false)
    };
    let layer = |name: &str| {
        Layer::new(Rectangle::new(0, 0, 2, 1))
            .named(name)
            .with_skipped(12, 1, vec![1])
            .with(0, 3, vec![3, 3, 0, 0])
            .with(0, 1, vec![1, 1, 0, 0])
            .with_skipped(65_535, 0xFFFF_FFFF, Vec::new())
            .with(0, 2, vec![2, 2, 0, 0])
            .with_skipped(1_000, 14, vec![0x7E; 3])
    };
    let initial = 0;
    let unknown = |id, length| {
        let data = vec![8; length];
        InBank::Skipped(Skipped { id, initial, data })
    };
    Picture::new(image)
        .skipped(10, 0, vec![0; 12])
        .skipped(11, 5, Vec::new())
        .skipped(1, 0, b"~FL\0".to_vec())
        .skipped(9, 24, vec![5; 3])
        .skipped(9, 24, Vec::new())
        .skipped(2, 9, vec![1, 2])
        .bank(vec![
            unknown(12, 2),
            InBank::Layer(layer("b")),
            unknown(13, 0),
            InBank::Layer(layer("a")),
            unknown(65_535, 1),
        ])
        .skipped(1, 36, vec![6; 4])
        .skipped(10, 2, Vec::new())
        .skipped(12, 0, vec![0; 1])
}
