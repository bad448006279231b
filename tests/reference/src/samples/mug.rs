//! The decal of a mug: eleven inks, one a layer, 24 bits, run lengths.
//!
//! File order is printing order, bottom first: the blue lies under the flux
//! that covers it. Sorted by name, flux would be printed second and "Layer 10"
//! before "Layer 2".

use crate::psp::planes::packed_form;
use crate::psp::rectangle::Rectangle;
use crate::write::{self, Alpha, Area, Form, Image, InAlphaBank, InBank, Layer, Picture};

const WIDTH: i32 = 96;
const HEIGHT: i32 = 64;

/// No ink has this level, so padding that is taken for a pixel shows.
const PADDING: u8 = 0xEE;

/// How much of a pixel an ink covers, 0 to 255, by its place on the canvas.
type Coverage = fn(i32, i32) -> u8;

/// An ink, flat over its saved rectangle or cut out of it by a coverage.
struct Ink {
    name: &'static str,
    saved: [i32; 4],
    colour: [u8; 3],
    cut: Option<Coverage>,
}

const fn ink(name: &'static str, saved: [i32; 4], colour: [u8; 3], cut: Option<Coverage>) -> Ink {
    Ink {
        name,
        saved,
        colour,
        cut,
    }
}

/// Widths are multiples of 4, so that both forms of a row are the same. The
/// handle's stripe leaves the canvas on the right, the marks above the corner.
const INKS: [Ink; 11] = [
    ink("Underglaze", [0, 0, 96, 64], [246, 240, 226], None),
    ink("Layer 2", [0, 6, 96, 10], [58, 122, 84], None),
    ink("Layer 3", [0, 54, 96, 58], [58, 122, 84], None),
    ink("White", [8, 12, 88, 52], [255, 255, 255], Some(panel)),
    ink("Blue", [20, 14, 76, 50], [28, 72, 160], Some(disc)),
    ink("Red", [36, 20, 60, 46], [190, 30, 45], Some(heart)),
    ink("Layer 9", [88, 20, 108, 44], [120, 84, 52], None),
    ink("Layer 10", [-8, -4, 16, 8], [0, 0, 0], Some(marks)),
    ink("Gold", [0, 0, 96, 4], [212, 175, 55], None),
    ink("Outline", [16, 12, 80, 52], [40, 32, 28], Some(ring)),
    ink("Flux", [20, 14, 76, 50], [236, 244, 250], Some(disc)),
];

/// How a decal differs from the inks' table.
struct Cut {
    /// Columns that an ink is less wide, by its place in the table.
    less: fn(usize) -> i32,
    /// The rectangle of an ink's user mask, by its saved rectangle.
    masked: fn(&Ink, Rectangle) -> Option<Rectangle>,
    form: Form,
}

pub fn mug() -> Picture {
    decal(&Cut {
        less: |_| 0,
        masked: |ink, saved| Some(saved).filter(|_| ink.name == "Outline"),
        form: Form::Padded,
    })
}

/// The decal without the last one, two or three columns of each ink, in turn:
/// no width is a multiple of 4. Three inks have a user mask, of another
/// rectangle than their own.
pub fn narrow_mug(form: Form) -> Picture {
    decal(&Cut {
        less: |ink| 1 + ink as i32 % 3,
        masked: |ink, saved| {
            let Rectangle { left, top, .. } = saved;
            let inner = Rectangle::new(left + 4, top + 3, saved.right, saved.bottom);
            Some(inner).filter(|_| ["Blue", "Red", "Outline"].contains(&ink.name))
        },
        form,
    })
}

/// The decal with its heart selected, and with two areas for the varnishing
/// screens, drawn as alpha channels.
pub fn varnished_mug() -> Picture {
    let area = |saved: [i32; 4], bitmap, coverage: Coverage| {
        let [left, top, right, bottom] = saved;
        let saved = Rectangle::new(left, top, right, bottom);
        Area::new(saved)
            .within(Rectangle::new(0, 0, WIDTH, HEIGHT))
            .with(bitmap, plane(saved, Form::Padded, coverage))
    };
    let alpha = |name, saved, coverage| {
        InAlphaBank::Alpha(Alpha::new(name, area(saved, write::ALPHA, coverage)))
    };
    mug()
        .selection(area([36, 20, 60, 46], write::SELECTION, heart))
        .alphas(vec![
            alpha("Varnish", [20, 14, 76, 50], disc),
            alpha("Foil", [16, 12, 80, 52], ring),
        ])
}

fn decal(cut: &Cut) -> Picture {
    let mut image = Image {
        width: WIDTH as u32,
        height: HEIGHT as u32,
        compression: 1,
        ..Image::new(24, false)
    };
    image.resolution = 300.0f64.to_bits();
    image.metric = 1;
    image.active_layer = 4;
    let inks = INKS.iter().enumerate();
    let layers = inks.map(|(at, ink)| InBank::Layer(layer(ink, at, cut)));
    Picture::new(image)
        .skipped(1, 0, creator())
        .bank(layers.collect())
}

fn layer(ink: &Ink, at: usize, cut: &Cut) -> Layer {
    let [left, top, right, bottom] = ink.saved;
    let right = right - (cut.less)(at);
    let form = cut.form;
    let saved = Rectangle::new(left, top, right, bottom);
    let mut layer = Layer::new(saved).named(ink.name);
    // The border is the canvas, and as much more as the ink needs.
    layer.image_border = Rectangle::new(
        left.min(0),
        top.min(0),
        right.max(WIDTH),
        bottom.max(HEIGHT),
    );
    layer.opacity = if ink.name == "Flux" { 64 } else { 255 };
    layer.visible = u8::from(ink.name != "Layer 10");
    layer.blend_count = 5;
    layer.blend_ranges = [0, 0, 255, 255].repeat(10).try_into().unwrap_or([0; 40]);
    for (channel, &level) in (1..).zip(&ink.colour) {
        layer = layer.with_rows(form, 0, channel, plane(saved, form, |_, _| level));
    }
    if let Some(coverage) = ink.cut {
        layer = layer.with_rows(form, 1, 0, plane(saved, form, coverage));
    }
    if let Some(masked) = (cut.masked)(ink, saved) {
        layer.mask_border = layer.image_border;
        layer.mask_saved = masked;
        layer.linked = 1;
        layer = layer.with_rows(form, 2, 0, plane(masked, form, upper_half));
    }
    layer
}

/// The packed plane of a rectangle.
fn plane(saved: Rectangle, form: Form, level: impl Fn(i32, i32) -> u8) -> Vec<u8> {
    let length = form.row(saved.width() as u64, 8) as usize;
    let row = |y| {
        let mut row: Vec<u8> = (saved.left..saved.right).map(|x| level(x, y)).collect();
        row.resize(length, PADDING);
        row
    };
    packed_form(&(saved.top..saved.bottom).flat_map(row).collect::<Vec<u8>>())
}

fn covered(inside: bool) -> u8 {
    if inside {
        255
    } else {
        0
    }
}

/// A rectangle with its corners cut.
fn panel(x: i32, y: i32) -> u8 {
    let near = (x - 8).min(87 - x) + (y - 12).min(51 - y);
    covered(near >= 6)
}

/// Four times the square of the distance from the middle, the x axis pressed
/// together to the shape of the decal.
fn distance(x: i32, y: i32) -> i32 {
    let (x, y) = ((2 * x + 1 - WIDTH) * 2 / 3, 2 * y + 1 - HEIGHT);
    x * x + y * y
}

/// Half covered along its edge.
fn disc(x: i32, y: i32) -> u8 {
    match distance(x, y) {
        0..=1_100 => 255,
        1_101..=1_250 => 128,
        _ => 0,
    }
}

fn ring(x: i32, y: i32) -> u8 {
    covered((1_250..1_600).contains(&distance(x, y)))
}

/// Two arches over a point.
fn heart(x: i32, y: i32) -> u8 {
    let (across, down) = ((2 * x + 1 - WIDTH).abs(), 2 * y - 52);
    let arch = (across - 11) * (across - 11) + down * down;
    covered(if down < 0 {
        arch <= 121
    } else {
        across + down * 3 / 5 <= 22
    })
}

/// A cross for registration around the canvas's corner.
fn marks(x: i32, y: i32) -> u8 {
    covered(x == 0 || y == 0)
}

fn upper_half(_: i32, y: i32) -> u8 {
    covered(y < HEIGHT / 2)
}

/// Title, dates, artist, copyright, description and application, in the order
/// of their keywords; no text ends with a zero.
fn creator() -> Vec<u8> {
    let created = 907_200_000u32.to_le_bytes();
    let changed = 912_470_400u32.to_le_bytes();
    let values: [&[u8]; 8] = [
        b"Mug decal, eleven inks",
        &created,
        &changed,
        b"Decal room",
        b"Public domain",
        b"One screen a layer, bottom first: the flux covers the blue.",
        &[0; 4],
        &[0; 4],
    ];
    let mut data = Vec::new();
    for (keyword, value) in (0u16..).zip(values) {
        data.extend_from_slice(b"~FL\0");
        data.extend_from_slice(&keyword.to_le_bytes());
        data.extend_from_slice(&(value.len() as u32).to_le_bytes());
        data.extend_from_slice(value);
    }
    data
}
