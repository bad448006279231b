//! Checks of selections and alpha channels: their lines and numbers, the ends
//! of their parents, and their pixels.

use super::Checks;
use crate::cases::alphas;
use crate::library::{Library, Reference};
use crate::opened::open;
use crate::psp::listing::list;
use crate::psp::program::listing_text;
use crate::psp::views;
use crate::samples;
use crate::write::{Node, Picture, Tree};

pub fn all(checks: &mut Checks) {
    texts(checks);
    entry_numbers(checks);
    behind_layers(checks);
    rests(checks);
    boundaries(checks);
    surplus_with_bad_lengths(checks);
    views_of_refused(checks);
    pixels(checks);
}

const ALPHAS: &str = "\
answer 0 place 1407 entries 16
0 image 0 36 52
1 bank 0 88 14
2 layer 1 102 389 0
3 channel 2 491 30 0 0 1 517 4 1 1 4 4
4 channel 2 521 30 0 0 2 547 4 1 1 4 4
5 channel 2 551 30 0 0 3 577 4 1 1 4 4
6 selection 0 581 50
7 skip 1 631 16 645 2 12
8 channel 1 647 32 0 3 0 673 6 3 2 6 3
9 alphabank 0 679 16
10 alpha 1 695 306 0
11 channel 2 1001 42 0 4 0 1027 16 5 2 16 8
12 skip 1 1043 15 1057 1 13
13 alpha 1 1058 306 1
14 channel 2 1364 26 1 4 0 1390 0 0 3 0 0
15 skip 2 1390 17 1404 3 1000
";

const EARLY: &str = "\
answer 0 place 1295 entries 11
0 image 0 36 52
1 alphabank 0 88 16
2 alpha 1 104 306 0
3 channel 2 410 34 0 4 0 436 8 3 3 9 3
4 alpha 1 444 306 1
5 channel 2 750 26 1 4 0 776 0 3 0 0 4
6 selection 0 776 50
7 channel 1 826 35 0 3 0 852 9 2 2 8 4
8 bank 0 861 14
9 layer 1 875 389 0
10 channel 2 1264 31 0 0 0 1290 5 1 1 4 4
";

fn texts(checks: &mut Checks) {
    let text = |picture: Picture| listing_text(&picture.bytes());
    checks.equal("alphas", text(samples::alphas()), ALPHAS.to_string());
    checks.equal("early", text(samples::early()), EARLY.to_string());
}

/// A parent fills its rank and nothing else of its last nine numbers; a skipped
/// block in the second alpha channel has no rank.
fn entry_numbers(checks: &mut Checks) {
    let entries = list(&samples::alphas().bytes(), 512).entries;
    let numbers = [6, 9, 13, 15].map(|at: usize| entries[at].numbers());
    let expected = [
        [6, 0, 0, 581, 50, 0, 0, 0, 0, 0, 0, 0, 0, 0],
        [7, 0, 0, 679, 16, 0, 0, 0, 0, 0, 0, 0, 0, 0],
        [8, 0, 1, 1_058, 306, 1, 0, 0, 0, 0, 0, 0, 0, 0],
        [1_000, 1, 2, 1_390, 17, 0, 0, 0, 1_404, 3, 0, 0, 0, 0],
    ];
    checks.equal("numbers", numbers, expected);
}

/// Ranks are those of the alpha bank, however many layers there are.
fn behind_layers(checks: &mut Checks) {
    let mut tree = samples::layers11().tree();
    tree.blocks.extend(alphas::small().tree().blocks.drain(2..));
    let entries = list(&tree.bytes(), 512).entries;
    let last: Vec<[u32; 3]> = entries[entries.len() - 5..]
        .iter()
        .map(|entry| [entry.id, entry.level, entry.layer_number])
        .collect();
    let expected = [[6, 0, 0], [5, 1, 0], [7, 0, 0], [8, 1, 0], [5, 2, 0]];
    checks.equal("behind eleven layers", last, expected.to_vec());
}

/// The file of 953 bytes.
fn tree() -> Tree {
    alphas::small().tree()
}

/// One to thirteen bytes left in the selection, in the alpha bank and in the
/// alpha channel, none of them there; and room for a header.
fn rests(checks: &mut Checks) {
    for left in 1..=14 {
        let number = if left < 14 { 6 } else { 2 };
        let mut selection = tree();
        selection.blocks.truncate(3);
        selection.blocks[2].total = Some(66 + left);
        checks.listing("rest of a selection", &selection.bytes(), (number, 601, 6));
        let mut bank = tree();
        bank.blocks[3].total = Some(338 + left);
        checks.listing("rest of an alpha bank", &bank.bytes(), (number, 953, 9));
        bank.blocks[3].children[0].total = Some(322 + left);
        checks.listing("rest of an alpha channel", &bank.bytes(), (number, 953, 9));
    }
}

/// The input stops between two blocks: a complete bank and a complete selection
/// are enough at the main level only.
fn boundaries(checks: &mut Checks) {
    let whole = tree().bytes();
    checks.listing("before the selection", &whole[..521], (0, 521, 4));
    checks.listing("before its channel", &whole[..571], (2, 571, 5));
    checks.listing("behind the selection", &whole[..601], (0, 601, 6));
    checks.listing("before the alpha channel", &whole[..617], (2, 617, 7));
    checks.listing("before its channel", &whole[..923], (2, 923, 8));
    checks.listing("behind the alpha bank", &whole, (0, 953, 9));
    let early = samples::early().bytes();
    checks.listing("without its bank", &early[..861], (2, 861, 8));
    let mut first = tree();
    first.blocks.swap(0, 2);
    checks.listing("a selection first", &first.bytes(), (7, 36, 0));
}

/// One more than announced is 9 before its lengths are judged, and a place is
/// judged before both.
fn surplus_with_bad_lengths(checks: &mut Checks) {
    let mut block = Node::new(8, 7, Vec::new());
    block.total = Some(u32::MAX);
    let mut alphas = tree();
    alphas.blocks[3].children.push(block.clone());
    checks.listing("a surplus alpha channel", &alphas.bytes(), (9, 953, 9));
    block.id = 5;
    for (path, place, count) in [(&[2][..], 601, 6), (&[3, 0], 953, 9)] {
        let mut channels = tree();
        channels.inside(path).push(block.clone());
        checks.listing("a surplus channel", &channels.bytes(), (9, place, count));
    }
    let mut misplaced = tree();
    misplaced.blocks[3].children.push(block);
    let misplaced = misplaced.bytes();
    checks.listing("a channel in an alpha bank", &misplaced, (7, 953, 9));
}

/// The listing's own number comes before 46 and 47.
fn views_of_refused(checks: &mut Checks) {
    let plain = samples::grey521().bytes();
    let numbers = |input: &[u8], room| {
        let selection = views::selection_facts(input, room).map(|_| ());
        let alpha = views::alpha_facts(input, room, 0).map(|_| ());
        let name = views::alpha_name(input, room, 0).map(|_| ());
        [selection, alpha, name].map(|result| result.err())
    };
    let expected = [Some(46), Some(47), Some(47)];
    checks.equal("neither", numbers(&plain, 4), expected);
    checks.equal("no room", numbers(&plain, 3), [Some(12); 3]);
    checks.equal("cut", numbers(&plain[..520], 4), [Some(2); 3]);
    checks.equal("both", numbers(&tree().bytes(), 9), [None; 3]);
}

/// A selection without padding and an alpha channel with it that leaves the
/// canvas on the left, each on a canvas of 6 by 4.
fn pixels(checks: &mut Checks) {
    let file = match open(&samples::alphas().bytes(), 512) {
        Ok(file) => file,
        Err(number) => return checks.equal("alphas", number, 0),
    };
    let placed = |bitmap| {
        let mut channels = file.channels.iter();
        let channel = channels.find(|channel| channel.entry.bitmap == bitmap)?;
        let mut canvas = vec![0; file.pixels()];
        let number = Reference.place(&file.placing(channel), &mut canvas, &channel.plane);
        Some((number, canvas))
    };
    let selected = [[0; 6], [0, 9, 8, 7, 0, 0], [0, 6, 5, 4, 0, 0], [0; 6]].concat();
    checks.equal("a selection's pixels", placed(3), Some((0, selected)));
    let varnish = [[0; 6], [2, 3, 4, 5, 0, 0], [7, 8, 9, 255, 0, 0], [0; 6]].concat();
    checks.equal("an alpha channel's pixels", placed(4), Some((0, varnish)));
}
