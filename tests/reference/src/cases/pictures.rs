//! Random valid pictures, and the streams of packets inside them.

use crate::psp::rectangle::Rectangle;
use crate::random::Random;
use crate::write::{
    self, Alpha, AlphaBank, Area, Channel, Form, Image, InAlphaBank, InBank, InLayer, Layer, Main,
    Picture, Skipped,
};

/// Ids of blocks that every level skips.
const UNKNOWN_IDS: [u16; 6] = [12, 13, 255, 256, 32_768, 65_535];

/// A random picture that the listing accepts. Big ones are rare.
pub fn valid(random: &mut Random) -> Picture {
    let image = image(random);
    let skipping = random.one_in(2);
    let mut main = vec![Main::Bank(bank(random, &image, skipping))];
    let grey = image.grey == 1;
    let has_palette = if image.depth == 24 {
        random.one_in(6)
    } else {
        !grey || random.one_in(3)
    };
    if has_palette {
        let palette = palette(random, image.depth);
        let at = if random.one_in(4) { 1 } else { 0 };
        main.insert(at, palette);
    }
    if random.one_in(3) {
        let selection = area(random, &image, write::SELECTION, skipping);
        put_anywhere(random, &mut main, Main::Selection(selection));
    }
    if random.one_in(3) {
        let alphas = alpha_bank(random, &image, skipping);
        put_anywhere(random, &mut main, Main::AlphaBank(alphas));
    }
    if skipping {
        for _ in 0..random.below(4) {
            skip(random, &mut main);
        }
    }
    Picture { image, main }
}

fn put_anywhere(random: &mut Random, main: &mut Vec<Main>, block: Main) {
    let place = random.index(main.len() + 1);
    main.insert(place, block);
}

fn image(random: &mut Random) -> Image {
    let (depth, grey) = random.pick(&[
        (1, false),
        (4, false),
        (8, false),
        (8, true),
        (8, true),
        (24, false),
        (24, false),
        (24, false),
    ]);
    let mut image = Image::new(depth, grey);
    image.width = side(random);
    image.height = side(random);
    image.compression = random.below(2) as u16;
    resolution(random, &mut image);
    image.total_size = random.next() as u32;
    image.active_layer = random.pick(&[0, 1, 5, 0x7FFF_FFFF, 0x8000_0000, 0xFFFF_FFFF]);
    image.layer_count = if depth < 24 && !grey {
        1
    } else if random.one_in(60) {
        random.pick(&[63, 64])
    } else if random.one_in(10) {
        random.between(4, 12) as u16
    } else {
        random.between(1, 3) as u16
    };
    image
}

fn bank(random: &mut Random, image: &Image, skipping: bool) -> Vec<InBank> {
    let mut bank = Vec::new();
    for _ in 0..image.layer_count {
        if skipping && random.one_in(4) {
            bank.extend(run(random, unknown).map(InBank::Skipped));
        }
        let plain = image.layer_count > 12;
        bank.push(InBank::Layer(layer(random, image, plain, skipping)));
    }
    if skipping && random.one_in(4) {
        bank.extend(run(random, unknown).map(InBank::Skipped));
    }
    bank
}

fn palette(random: &mut Random, depth: u16) -> Main {
    if depth == 24 {
        // Only skipped there: neither lengths nor count are judged.
        let mut block = unknown(random);
        block.id = 2;
        return Main::Skipped(block);
    }
    let most = 1u64 << depth;
    let any = 1 + random.below(most);
    let count = random.pick(&[1, 2, most, any, any]).min(most);
    let entry = |_| (random.next() as u32).to_le_bytes();
    Main::Palette((0..count).map(entry).collect())
}

/// Skipped main blocks, put anywhere; thumbnails stand before the bank.
fn skip(random: &mut Random, main: &mut Vec<Main>) {
    let blocks: Vec<Skipped> = run(random, known).collect();
    let place = random.index(main.len() + 1);
    let is_bank = |block: &Main| matches!(block, Main::Bank(_));
    let bank = main.iter().position(is_bank).unwrap_or(0);
    let place = if blocks.iter().any(|block| block.id == 9) {
        place.min(bank)
    } else {
        place
    };
    main.splice(place..place, blocks.into_iter().map(Main::Skipped));
}

fn side(random: &mut Random) -> u32 {
    let small = random.between(1, 40) as u32;
    random.pick(&[1, 2, small, small, small, 4_096, 29_999, 30_000])
}

fn resolution(random: &mut Random, image: &mut Image) {
    image.metric = random.below(3) as u8;
    image.resolution = if image.metric == 0 {
        random.pick(&[
            0,
            0,
            1 << 63,
            0x7FF0_0000_0000_0000,
            0x7FF4_0000_0000_0001,
            u64::MAX,
        ])
    } else {
        let plain = 72.0f64.to_bits();
        random.pick(&[
            plain,
            1,
            0x000F_FFFF_FFFF_FFFF,
            0x7FEF_FFFF_FFFF_FFFF,
            plain,
        ])
    };
}

fn data(random: &mut Random) -> Vec<u8> {
    let length = if random.one_in(3) {
        0
    } else {
        random.index(20)
    };
    if random.one_in(3) {
        // Bytes that look like a block: they are data all the same.
        let mut bytes = b"~BK\0\x04\0\x77\x01\0\0\x77\x01\0\0".to_vec();
        bytes.truncate(length);
        bytes
    } else {
        random.bytes(length)
    }
}

fn unknown(random: &mut Random) -> Skipped {
    let initial = random.pick(&[0, 1, 14, 375, 0xFFFF_FFFF]);
    Skipped {
        id: random.pick(&UNKNOWN_IDS),
        initial,
        data: data(random),
    }
}

/// One of them as a rule, at times several, one behind another.
fn run(
    random: &mut Random,
    block: fn(&mut Random) -> Skipped,
) -> impl Iterator<Item = Skipped> + '_ {
    let length = random.pick(&[1, 1, 1, 2, 3, 5]);
    (0..length).map(move |_| block(random))
}

/// A block that main only skips.
fn known(random: &mut Random) -> Skipped {
    let mut block = unknown(random);
    block.id = random.pick(&[1, 9, 9, 10, 11, 12, 65_535]);
    block
}

fn layer(random: &mut Random, image: &Image, plain: bool, skipping: bool) -> Layer {
    let mut layer = layer_chunk(random, plain);
    let colours = image.colour_codes();
    let mut codes: Vec<(u16, u16)> = colours.map(|channel| (0, channel)).collect();
    if random.one_in(3) {
        codes.push((1, 0));
    }
    if random.one_in(3) {
        codes.push((2, 0));
    }
    layer.bitmaps = 1 + codes.iter().filter(|code| code.0 != 0).count() as u16;
    layer.channels = codes.len() as u16;
    if random.one_in(3) {
        random.shuffle(&mut codes);
    }
    for (bitmap, channel) in codes {
        perhaps_skipped(random, skipping, &mut layer.inside);
        let form = form(random, image.bits(bitmap));
        let plane = layer.plane_length(image, bitmap, form);
        let content = content(random, plane, image.compression, plain);
        layer.inside.push(InLayer::Channel(Channel {
            bitmap,
            channel,
            form,
            plane: None,
            content,
        }));
    }
    perhaps_skipped(random, skipping, &mut layer.inside);
    layer
}

fn perhaps_skipped(random: &mut Random, skipping: bool, inside: &mut Vec<InLayer>) {
    if skipping && random.one_in(6) {
        inside.extend(run(random, unknown).map(InLayer::Skipped));
    }
}

/// A selection, or an alpha channel without its name.
fn area(random: &mut Random, image: &Image, bitmap: u16, skipping: bool) -> Area {
    let (border, saved) = rectangles(random, false);
    let mut area = Area::new(saved).within(border);
    perhaps_skipped(random, skipping, &mut area.inside);
    let form = random.pick(&Form::BOTH);
    let content = content(random, area.plane_length(form), image.compression, false);
    area = area.with_rows(form, bitmap, content);
    perhaps_skipped(random, skipping, &mut area.inside);
    area
}

fn alpha_bank(random: &mut Random, image: &Image, skipping: bool) -> AlphaBank {
    let mut inside = Vec::new();
    for _ in 0..random.pick(&[0, 1, 2, 2, 3]) {
        if skipping && random.one_in(4) {
            inside.extend(run(random, unknown).map(InAlphaBank::Skipped));
        }
        let mut alpha = Alpha::new("", area(random, image, write::ALPHA, skipping));
        name(random, &mut alpha.name);
        inside.push(InAlphaBank::Alpha(alpha));
    }
    if skipping && random.one_in(4) {
        inside.extend(run(random, unknown).map(InAlphaBank::Skipped));
    }
    AlphaBank::new(inside)
}

/// Of any length; bytes after the first zero are no part of it.
fn name(random: &mut Random, name: &mut [u8; 256]) {
    let length = random.pick(&[0, 1, 5, 255, 256]);
    for byte in name.iter_mut().take(length) {
        *byte = 1 + random.below(255) as u8;
    }
    if random.one_in(8) {
        name[200] = 7;
    }
}

/// Only pixels of a byte each may stand without padding. The channels of a
/// layer choose each for itself.
fn form(random: &mut Random, bits: u64) -> Form {
    if bits == 8 {
        random.pick(&Form::BOTH)
    } else {
        Form::Padded
    }
}

/// A layer without channels; every field that no rule fixes is anything.
fn layer_chunk(random: &mut Random, plain: bool) -> Layer {
    let (image_border, image_saved) = rectangles(random, plain);
    let (mask_border, mask_saved) = rectangles(random, plain);
    let mut layer = Layer::new(image_saved);
    layer.image_border = image_border;
    layer.mask_border = mask_border;
    layer.mask_saved = mask_saved;
    layer.initial = random.pick(&[375, 375, 0]);
    name(random, &mut layer.name);
    layer.kind = random.below(2) as u8;
    layer.opacity = random.byte();
    layer.blending = random.byte();
    layer.visible = random.pick(&[0, 1, 2, 255]);
    layer.protected = random.pick(&[0, 1, 128]);
    layer.group = random.byte();
    layer.linked = random.pick(&[0, 1, 3]);
    layer.disabled = random.pick(&[0, 1, 254]);
    layer.inverted = random.pick(&[0, 1, 16]);
    layer.blend_count = random.below(6) as u16;
    for byte in layer.blend_ranges.iter_mut() {
        *byte = random.byte();
    }
    layer
}

/// A border and a saved rectangle that go together.
fn rectangles(random: &mut Random, plain: bool) -> (Rectangle, Rectangle) {
    let sides = if plain {
        (random.between(0, 2), random.between(0, 2))
    } else if random.one_in(12) {
        // Planes too long to be stored here: the content is cut short.
        (
            random.pick(&[0, 1, 4_096, 29_999, 30_000]),
            random.pick(&[0, 1, 4_096, 29_999, 30_000]),
        )
    } else {
        (random.between(0, 12), random.between(0, 8))
    };
    let corner = |random: &mut Random, side: i64| {
        let small = random.between(-20, 20);
        random.pick(&[0, small, small, -32_768, 32_767 - side])
    };
    let left = corner(random, sides.0);
    let top = corner(random, sides.1);
    let (right, bottom) = (left + sides.0, top + sides.1);
    let saved = Rectangle::new(left as i32, top as i32, right as i32, bottom as i32);
    if saved.is_empty() && random.one_in(2) {
        // An empty one may lie anywhere.
        return (Rectangle::new(3, 3, 7, 7), saved);
    }
    let border = Rectangle {
        left: (left - random.between(0, 3)).max(-32_768) as i32,
        top: (top - random.between(0, 3)).max(-32_768) as i32,
        right: (right + random.between(0, 3)).min(32_767) as i32,
        bottom: (bottom + random.between(0, 3)).min(32_767) as i32,
    };
    if random.one_in(12) {
        return (Rectangle::new(-32_768, -32_768, 32_767, 32_767), saved);
    }
    (border, saved)
}

/// A channel's content: as a rule the plane, stored as the image says; at
/// times anything, for the listing does not look inside.
fn content(random: &mut Random, plane: u64, compression: u16, plain: bool) -> Vec<u8> {
    let too_long = plane > 16_000 || (plane > 600 && !random.one_in(4)) || (plain && plane > 30);
    if too_long || random.one_in(8) {
        let length = random.index(24);
        return random.bytes(length);
    }
    if compression == 1 {
        packets(random, plane as usize)
    } else {
        random.bytes(plane as usize)
    }
}

/// A random stream that gives exactly that many bytes: any packet lengths,
/// literals of nothing among them.
pub fn packets(random: &mut Random, plane: usize) -> Vec<u8> {
    let mut stream = Vec::new();
    let mut left = plane;
    let longest = random.pick(&[3, 20, 127]);
    while left > 0 {
        if random.one_in(12) {
            stream.push(0);
        }
        let count = 1 + random.index(left.min(longest));
        if random.one_in(2) {
            stream.push(128 + count as u8);
            stream.push(random.byte());
        } else {
            stream.push(count as u8);
            stream.extend(random.bytes(count));
        }
        left -= count;
    }
    stream
}
