//! Checks of facts at a place: by hand in the file of 953 bytes, and beside the
//! views at every block of the samples.

use super::Checks;
use crate::answers::answer;
use crate::case::{Case, ROOM_LIMIT};
use crate::cases::{alphas, sweeps};
use crate::library::{Library, Reference};
use crate::psp::listing::{list, Entry};
use crate::psp::views;

pub fn all(checks: &mut Checks) {
    by_hand(checks);
    cut(checks);
    other_headers(checks);
    as_the_views(checks);
}

/// Of the layer and its name, the selection, the alpha channel and its name.
fn numbers(input: &[u8], place: u64) -> [u32; 5] {
    [
        Reference.layer_at(input, place).0,
        Reference.name_at(input, place).0,
        Reference.selection_at(input, place).0,
        Reference.alpha_at(input, place).0,
        Reference.alpha_name_at(input, place).0,
    ]
}

const NOTHING: [u32; 5] = [45, 45, 46, 47, 47];
const LAYER: [u32; 5] = [0, 0, 46, 47, 47];
const SELECTION: [u32; 5] = [45, 45, 0, 47, 47];
const ALPHA: [u32; 5] = [45, 45, 46, 0, 0];

fn by_hand(checks: &mut Checks) {
    let file = alphas::small().bytes();
    checks.equal("a layer's place", numbers(&file, 102), LAYER);
    checks.equal("the selection's place", numbers(&file, 521), SELECTION);
    checks.equal("an alpha's place", numbers(&file, 617), ALPHA);
    for place in [0, 36, 88, 101, 103, 491, 571, 601, 923, 953, u64::MAX] {
        checks.equal("no place of these", numbers(&file, place), NOTHING);
    }
    let wrapped = numbers(&file, (1 << 32) + 102);
    checks.equal("the place of none", wrapped, NOTHING);
    let layer = views::layer_at(&file, 102).map(|layer| (layer.channels, layer.image_saved.right));
    checks.equal("the layer's fields", layer, Ok((1, 1)));
    checks.equal("its name", views::name_at(&file, 102), Ok((116, 0)));
    checks.equal("its name", views::alpha_name_at(&file, 617), Ok((631, 0)));
}

/// Nothing behind the chunk is looked at, and the file may be refused.
fn cut(checks: &mut Checks) {
    let file = alphas::small().bytes();
    for (place, end, found) in [(102, 491, LAYER), (521, 571, SELECTION), (617, 923, ALPHA)] {
        checks.equal("a whole chunk", numbers(&file[..end], place), found);
        checks.equal("a chunk cut", numbers(&file[..end - 1], place), NOTHING);
    }
}

/// Mark, id and both lengths are judged; a layer's initial length may be 0.
fn other_headers(checks: &mut Checks) {
    let with = |offset: usize, byte| {
        let mut file = alphas::small().bytes();
        file[102 + offset] = byte;
        numbers(&file, 102)
    };
    checks.equal("another mark", with(0, b'!'), NOTHING);
    checks.equal("another id", with(4, 5), NOTHING);
    checks.equal("another initial length", with(6, 0x76), NOTHING);
    checks.equal("too small a total", with(11, 0), NOTHING);
    checks.equal("another total", with(12, 9), LAYER);
    let mut file = alphas::small().bytes();
    file[108..110].fill(0);
    checks.equal("initial length 0", numbers(&file, 102), LAYER);
}

/// At the place of each layer, selection and alpha channel of an accepted file
/// stands what the view of its number shows.
fn as_the_views(checks: &mut Checks) {
    for picture in sweeps::bases().into_iter().chain(sweeps::with_areas()) {
        let input = picture.bytes();
        for entry in list(&input, ROOM_LIMIT as usize).entries {
            if let Some(view) = view(&entry, &input) {
                let place = u64::from(entry.header_place);
                let input = input.clone();
                let here = answer(&Reference, &Case::Place { place, input }).line;
                let view = format!(" {} ", answer(&Reference, &view).line);
                checks.that("the view's own answer", here.contains(&view));
            }
        }
    }
}

fn view(entry: &Entry, input: &[u8]) -> Option<Case> {
    let (room, k, input) = (ROOM_LIMIT, entry.layer_number, input.to_vec());
    match (entry.skipped, entry.id) {
        (0, 4) => Some(Case::LayerFacts { room, k, input }),
        (0, 6) => Some(Case::SelectionFacts { room, input }),
        (0, 8) => Some(Case::AlphaFacts { room, k, input }),
        _ => None,
    }
}
