//! Checks of the listing: one function for each point that the text leaves
//! open or that is easily missed.

use super::Checks;
use crate::psp::chunks::Resolution;
use crate::psp::listing::{list, list_into, Entry};
use crate::psp::program::listing_text;
use crate::psp::rectangle::Rectangle;
use crate::samples;
use crate::write::{Image, InBank, InLayer, Layer, Main, Node, Picture, Tree};

pub fn all(checks: &mut Checks) {
    rests(checks);
    incomplete_parents(checks);
    order_at_a_block(checks);
    order_at_a_channel(checks);
    order_at_a_palette(checks);
    expected_bitmaps(checks);
    rectangles(checks);
    huge_totals(checks);
    short_inputs(checks);
    main_blocks(checks);
    palette_at_24(checks);
    rooms(checks);
    versions_and_compression(checks);
    entry_numbers(checks);
    carried_fields(checks);
    resolutions(checks);
    printed_kinds(checks);
    layer_counts(checks);
}

/// A grey file whose blocks a check can change.
fn tree() -> Tree {
    samples::grey521().tree()
}

fn bank(tree: &mut Tree) -> &mut Node {
    let at = tree
        .blocks
        .iter()
        .position(|node| node.id == 3)
        .unwrap_or(0);
    &mut tree.blocks[at]
}

/// The grey file with its channel's bytes changed.
fn channel(change: &dyn Fn(&mut Vec<u8>)) -> Vec<u8> {
    let mut tree = tree();
    change(&mut bank(&mut tree).children[0].children[0].data);
    tree.bytes()
}

/// Number and place of the grey file with its layer changed.
fn with(change: &dyn Fn(&mut Layer)) -> (u32, u64) {
    let mut picture = samples::grey521();
    for layer in picture.layers_mut() {
        change(layer);
    }
    let listing = list(&picture.bytes(), 512);
    (listing.number, listing.place)
}

/// One to thirteen bytes left in a parent.
fn rests(checks: &mut Checks) {
    for left in 1..=13u32 {
        let mut short = tree();
        bank(&mut short).total = Some(419 + left);
        checks.listing("rest of a bank, not there", &short.bytes(), (6, 521, 4));
        let mut short = tree();
        bank(&mut short).total = Some(419 + left);
        bank(&mut short).children[0].total = Some(405 + left);
        checks.listing("rest of a layer, not there", &short.bytes(), (6, 521, 4));
    }
    let mut room_for_header = tree();
    bank(&mut room_for_header).total = Some(419 + 14);
    checks.listing(
        "room for a header, none there",
        &room_for_header.bytes(),
        (2, 521, 4),
    );
}

/// An incomplete parent, judged on its end.
fn incomplete_parents(checks: &mut Checks) {
    let mut no_channel = tree();
    bank(&mut no_channel).children[0].children.clear();
    checks.listing(
        "a layer without channels",
        &no_channel.bytes(),
        (10, 491, 3),
    );
    let mut no_layer = tree();
    bank(&mut no_layer).children.clear();
    checks.listing("a bank without layers", &no_layer.bytes(), (10, 102, 2));
    let whole = tree().bytes();
    checks.listing("cut before the channel", &whole[..491], (2, 491, 3));
    checks.listing("cut before the layer", &whole[..102], (2, 102, 2));
}

/// The order of the checks at a block.
fn order_at_a_block(checks: &mut Checks) {
    let mut surplus = tree();
    let mut layer = bank(&mut surplus).children[0].clone();
    layer.initial = 7;
    layer.total = Some(0xFFFF_FFFF);
    bank(&mut surplus).children.push(layer);
    checks.listing(
        "a surplus layer with bad lengths",
        &surplus.bytes(),
        (9, 521, 4),
    );
    let mut misplaced = tree();
    let mut channel = Node::new(5, 0, Vec::new());
    channel.total = Some(0xFFFF_FFFF);
    bank(&mut misplaced).children.push(channel.clone());
    checks.listing(
        "a misplaced block with bad lengths",
        &misplaced.bytes(),
        (7, 521, 4),
    );
    let mut unmarked = tree();
    channel.mark = *b"~BK\x01";
    bank(&mut unmarked).children.push(channel);
    checks.listing("the mark before the place", &unmarked.bytes(), (5, 521, 4));
}

/// The order of the checks at a channel.
fn order_at_a_channel(checks: &mut Checks) {
    let whole = tree().bytes();
    let bad_all = channel(&|data| {
        data[0] = 9;
        data[4] = 9;
        data[8] = 9;
    });
    checks.listing("12 + j first", &bad_all, (6, 491, 3));
    let bad_codes = channel(&|data| {
        data[4] = 9;
        data[8] = 6;
    });
    checks.listing("then the codes", &bad_codes, (8, 513, 3));
    let bad_channel = channel(&|data| {
        data[4] = 9;
        data[10] = 3;
    });
    checks.listing("then expected", &bad_channel, (9, 491, 3));
    let bad_plane = channel(&|data| data[4] = 5);
    checks.listing("then the plane length", &bad_plane[..519], (8, 509, 3));
    checks.listing("then the content", &whole[..519], (2, 517, 3));
}

/// The order of the checks at a palette.
fn order_at_a_palette(checks: &mut Checks) {
    let palette = |total: Option<u32>, count: u32, bytes: usize| {
        let mut tree = tree();
        let mut data = count.to_le_bytes().to_vec();
        data.resize(4 + bytes, 1);
        let mut node = Node::new(2, 4, data);
        node.total = total;
        tree.blocks.insert(1, node);
        tree.bytes()
    };
    checks.listing(
        "a palette's total below 4",
        &palette(Some(3), 0, 0),
        (6, 88, 1),
    );
    checks.listing(
        "its count before its total",
        &palette(Some(9), 0, 0),
        (8, 102, 1),
    );
    checks.listing(
        "its count above 256",
        &palette(None, 257, 1_028),
        (8, 102, 1),
    );
    checks.listing("its total", &palette(Some(9), 1, 4), (6, 88, 1));
    checks.listing("its entries", &palette(None, 1, 4)[..109], (2, 106, 1));
    checks.listing(
        "256 entries",
        &palette(None, 256, 1_024),
        (0, 521 + 1_042, 5),
    );
}

/// "Expected" does not look at the bitmap count.
fn expected_bitmaps(checks: &mut Checks) {
    for bitmap in 1..=2u16 {
        let mut odd = samples::grey521();
        for layer in odd.layers_mut() {
            for part in layer.inside.iter_mut() {
                if let InLayer::Channel(channel) = part {
                    channel.bitmap = bitmap;
                    channel.content.clear();
                }
            }
        }
        checks.listing("a mask instead of the colour", &odd.bytes(), (10, 517, 4));
    }
    for code in 3..=6u8 {
        let number = if code == 6 { (8, 513, 3) } else { (9, 491, 3) };
        checks.listing("bitmaps 3 to 6", &channel(&|data| data[8] = code), number);
    }
    checks.listing("channel 4", &channel(&|data| data[10] = 4), (8, 515, 3));
}

/// All four rectangles are judged; the side limit is for the saved ones. Each is
/// named at its first corner: 373, 389, 410 and 426.
fn rectangles(checks: &mut Checks) {
    const GOOD: (u32, u64) = (0, 521);
    let wide = Rectangle::new(-32_768, -32_768, 32_767, 32_767);
    let far = Rectangle::new(32_768, 0, 32_768, 0);
    let border = with(&|layer| layer.image_border = wide);
    checks.equal("a wide border", border, GOOD);
    let saved = with(&|layer| layer.image_saved = wide);
    checks.equal("a wide saved one", saved, (8, 389));
    let both = with(&|layer| {
        layer.image_border = far;
        layer.image_saved = wide;
    });
    checks.equal("its border before it", both, (8, 373));
    let border = with(&|layer| layer.mask_border = far);
    checks.equal("an empty border out of range", border, (8, 410));
    let empty = [
        ("out of range", far, (8, 426)),
        ("elsewhere", Rectangle::new(500, 500, 500, 600), GOOD),
        ("too long", Rectangle::new(0, 0, 0, 30_001), (8, 426)),
        ("out of order", Rectangle::new(0, 1, 0, 0), (8, 426)),
    ];
    for (name, mask, expected) in empty {
        let answer = with(&|layer| layer.mask_saved = mask);
        checks.equal(&format!("an empty one {}", name), answer, expected);
    }
    let larger = with(&|layer| {
        layer.image_border = wide;
        layer.image_saved = Rectangle::new(0, 0, 30_000, 30_000);
    });
    checks.equal("larger than the image", larger, GOOD);
    for saved in [[30_001, 1], [1, 30_001]] {
        let longer = with(&|layer| {
            layer.image_border = wide;
            layer.image_saved = Rectangle::new(0, 0, saved[0], saved[1]);
        });
        checks.equal("longer by one", longer, (8, 389));
    }
}

/// Totals of main blocks, and sums past 32 bits.
fn huge_totals(checks: &mut Checks) {
    let mut skip = tree();
    let mut node = Node::new(12, 0, vec![0; 3]);
    node.total = Some(0xFFFF_FFFF);
    skip.blocks.insert(1, node.clone());
    checks.listing("a huge skipped main block", &skip.bytes(), (2, 102, 1));
    let mut huge = tree();
    bank(&mut huge).total = Some(0xFFFF_FFFF);
    checks.listing("a huge bank", &huge.bytes(), (2, 521, 4));
    huge.blocks.push(Node::new(12, 0, Vec::new()));
    checks.listing("a skip inside it", &huge.bytes(), (2, 535, 5));
    checks.equal("at level 1", list(&huge.bytes(), 512).entries[4].level, 1);
    huge.blocks.push(Node::new(1, 0, Vec::new()));
    checks.listing("a creator block inside it", &huge.bytes(), (7, 535, 5));
}

/// Short rests and short inputs.
fn short_inputs(checks: &mut Checks) {
    let whole = tree().bytes();
    for more in 1..=13 {
        let mut input = whole.clone();
        input.resize(521 + more, 0);
        checks.listing("bytes after a complete file", &input, (2, 521, 4));
    }
    checks.listing("35 bytes", &[0; 35], (2, 0, 0));
    checks.listing("nothing", &[], (2, 0, 0));
    checks.listing("36 good bytes", &whole[..36], (2, 36, 0));
    checks.listing("36 bad bytes", &[0; 36], (3, 0, 0));
    // Zeros that nothing touches take no memory.
    let limit = 1_073_741_824;
    let mut input = vec![0; limit + 1];
    checks.listing("over the limit", &input, (1, 0, 0));
    input.truncate(limit);
    checks.listing("at the limit", &input, (3, 0, 0));
}

/// The first block, and the order of main blocks.
fn main_blocks(checks: &mut Checks) {
    for id in [1, 2, 3, 12, 65_535].iter().copied() {
        let mut first = tree();
        first.blocks.insert(0, Node::new(id, 0, Vec::new()));
        checks.listing("first block", &first.bytes(), (7, 36, 0));
    }
    let mut late = tree();
    late.blocks.push(Node::new(9, 0, Vec::new()));
    checks.listing("a late thumbnail", &late.bytes(), (7, 521, 4));
    let mut early = tree();
    early.blocks.insert(1, Node::new(9, 0, Vec::new()));
    early.blocks.insert(1, Node::new(9, 0, Vec::new()));
    checks.listing("two thumbnails", &early.bytes(), (0, 549, 6));
    let mut second = tree();
    second.blocks.push(Node::new(3, 0, Vec::new()));
    checks.listing("a second bank", &second.bytes(), (7, 521, 4));
    let late_palette = samples::bits1().bytes();
    checks.listing(
        "a late palette",
        &late_palette,
        (0, late_palette.len() as u64, 5),
    );
    let mut none = samples::bits1();
    none.main.pop();
    let none = none.bytes();
    checks.listing("no palette", &none, (2, none.len() as u64, 4));
}

/// A palette at depth 24 is skipped, once.
fn palette_at_24(checks: &mut Checks) {
    let skips = samples::skips();
    let listing = list(&skips.bytes(), 512);
    let skipped: Vec<&Entry> = listing
        .entries
        .iter()
        .filter(|entry| entry.id == 2)
        .collect();
    checks.that(
        "skipped at depth 24",
        skipped.len() == 1 && skipped[0].skipped == 1,
    );
    let mut twice = skips.tree();
    let at = twice
        .blocks
        .iter()
        .position(|node| node.id == 2)
        .unwrap_or(0);
    let palette = twice.blocks[at].clone();
    twice.blocks.insert(at, palette);
    let place = u64::from(skipped[0].header_place) + 16;
    checks.listing("but once", &twice.bytes(), (7, place, at + 1));
}

/// Presence comes before the room, and the room before what is inside.
fn rooms(checks: &mut Checks) {
    let whole = tree().bytes();
    for (room, place) in [36, 88, 102, 491].iter().copied().enumerate() {
        let listing = list(&whole, room);
        let got = (listing.number, listing.place, listing.entries.len());
        checks.equal("a full table", got, (12, place, room));
        let all = list(&whole, 512).entries;
        checks.that("its entries", listing.entries[..] == all[..room]);
    }
    let listing = list(&whole[..520], 3);
    checks.equal("presence first", (listing.number, listing.place), (2, 517));
    let listing = list(&whole[..102], 1);
    checks.equal(
        "a bank is its header",
        (listing.number, listing.place),
        (12, 88),
    );
    let mut table = [7; 14 * 2 + 13];
    checks.equal("a table", list_into(&whole, &mut table), (12, 102, 2));
    checks.that(
        "the rest of it",
        table[28..].iter().all(|&number| number == 7),
    );
}

/// Numbers 4 and 11 wait for the checks before them.
fn versions_and_compression(checks: &mut Checks) {
    let whole = tree().bytes();
    let mut minor = whole.clone();
    minor[34] = 1;
    checks.listing("a wrong minor version", &minor, (4, 32, 0));
    minor[0] = 0;
    checks.listing("after the signature", &minor, (3, 0, 0));
    let mut picture = samples::grey521();
    picture.image.compression = 2;
    checks.listing("compression 2", &picture.bytes(), (11, 50, 0));
    picture.image.layer_count = 65;
    checks.listing("and a bad field", &picture.bytes(), (8, 86, 0));
}

/// A layer's and a skipped block's numbers.
fn entry_numbers(checks: &mut Checks) {
    let skips = samples::skips();
    let entries = &list(&skips.bytes(), 512).entries;
    let second_layer = entries.iter().filter(|entry| entry.id == 4).nth(1);
    let numbers = second_layer.map(|entry| entry.numbers());
    checks.that(
        "a layer's last nine",
        matches!(numbers, Some([4, 0, 1, _, 389, 1, 0, 0, 0, 0, 0, 0, 0, 0])),
    );
    let inside = entries
        .iter()
        .filter(|entry| entry.level == 2 && entry.skipped == 1)
        .last();
    checks.that(
        "a skip in layer 1",
        inside.map_or(false, |entry| entry.layer_number == 0),
    );
}

/// What no rule judges.
fn carried_fields(checks: &mut Checks) {
    let mut carried = samples::grey521();
    for layer in carried.layers_mut() {
        layer.initial = 0;
        layer.opacity = 255;
        layer.blending = 255;
        layer.group = 255;
        layer.blend_ranges = [255; 40];
    }
    checks.listing("carried fields", &carried.bytes(), (0, 521, 4));
}

/// Which resolutions pass, and their dots per centimetre.
fn resolutions(checks: &mut Checks) {
    let resolution = |metric: u8, bits: u64| {
        Resolution {
            value: f64::from_bits(bits),
            metric,
        }
        .is_permitted()
    };
    checks.that("a subnormal", resolution(1, 1) && resolution(2, 1));
    checks.that("-0", !resolution(1, 1 << 63));
    checks.that("NaN", resolution(0, u64::MAX) && !resolution(2, u64::MAX));
    let dots = |metric: u8, value: f64| {
        Resolution { value, metric }
            .dots_per_centimetre()
            .map(f64::to_bits)
    };
    checks.equal("the least subnormal", dots(1, f64::from_bits(1)), Some(0));
    checks.equal("2.54 dots an inch", dots(1, 2.54), Some(1.0f64.to_bits()));
    checks.equal(
        "dots a centimetre",
        dots(2, 300.0),
        Some(300.0f64.to_bits()),
    );
    checks.equal("nothing known", dots(0, 300.0), None);
    checks.equal("infinity", dots(1, f64::INFINITY), None);
    checks.equal("metric 3", dots(3, 1.0), None);
}

/// Lines of the listing program.
fn printed_kinds(checks: &mut Checks) {
    let text = listing_text(&samples::palette().bytes());
    checks.that("a skip's line", text.contains("\n1 skip 0 88 19 102 5 9\n"));
    checks.that(
        "a palette's line",
        text.contains("\n2 palette 0 107 34 125 16\n"),
    );
}

/// Layers in one bank, with the counts off by one.
fn layer_counts(checks: &mut Checks) {
    let layer = || Layer::new(Rectangle::default()).with(0, 0, Vec::new());
    let mut two = Picture::new(Image::new(8, true))
        .bank(vec![InBank::Layer(layer()), InBank::Layer(layer())]);
    checks.listing("two layers", &two.bytes(), (0, 932, 6));
    two.image.layer_count = 3;
    checks.listing("three announced", &two.bytes(), (10, 932, 6));
    two.image.layer_count = 1;
    checks.listing("one announced", &two.bytes(), (9, 517, 4));
    two.main.insert(0, Main::Palette(Vec::new()));
    checks.listing("an empty palette", &two.bytes(), (8, 102, 1));
}
