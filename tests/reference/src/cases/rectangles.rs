//! Whole rectangles in each of the four places of each layer, and in both of
//! each selection and alpha channel.

use super::sweeps::listing;
use crate::case::Case;
use crate::psp::rectangle::Rectangle;
use crate::write::Picture;

/// Rectangles against the border (-10,-20)-(30,40): inside it, past each of its
/// sides, empty ones anywhere, and ones that break each rule.
const SAVED: [[i32; 4]; 23] = [
    [-10, -20, 30, 40],
    [-11, -20, 30, 40],
    [-10, -21, 30, 40],
    [-10, -20, 31, 40],
    [-10, -20, 30, 41],
    [-9, -19, 29, 39],
    [0, 0, 0, 0],
    [100, 100, 100, 100],
    [100, 100, 100, 30_100],
    [100, 100, 100, 30_101],
    [100, 100, 30_100, 100],
    [100, 100, 30_101, 100],
    [100, 100, 100, 99],
    [100, 100, 99, 100],
    [30, 40, 30, 41],
    [32_767, 32_767, 32_767, 32_767],
    [32_768, 0, 32_768, 0],
    [-32_768, -32_768, -32_768, -32_768],
    [-32_769, 5, -32_769, 6],
    [i32::MIN, i32::MIN, i32::MAX, i32::MAX],
    [i32::MAX, i32::MAX, i32::MIN, i32::MIN],
    [1, 1, 0, 2],
    [1, 1, 2, 0],
];

/// With a border as wide as can be, the side limit alone decides; and rows
/// around whole groups of 32 bits.
const IN_WIDE: [[i32; 4]; 16] = [
    [0, 0, 29_999, 1],
    [0, 0, 30_000, 1],
    [0, 0, 30_001, 1],
    [0, 0, 1, 30_000],
    [0, 0, 1, 30_001],
    [0, 0, 30_000, 30_000],
    [0, 0, 4_096, 4_097],
    [2_767, 2_767, 32_767, 32_767],
    [-32_768, -32_768, -2_768, -2_768],
    [0, 0, 31, 3],
    [0, 0, 32, 3],
    [0, 0, 33, 3],
    [0, 0, 7, 1],
    [0, 0, 8, 1],
    [0, 0, 9, 1],
    [0, 0, 65, 2],
];

/// Borders with their saved rectangles.
fn pairs() -> Vec<(Rectangle, Rectangle)> {
    let of = |[left, top, right, bottom]: [i32; 4]| Rectangle::new(left, top, right, bottom);
    let border = of([-10, -20, 30, 40]);
    let wide = of([-32_768, -32_768, 32_767, 32_767]);
    let mut pairs = Vec::new();
    pairs.extend(SAVED.iter().map(|&saved| (border, of(saved))));
    pairs.extend(IN_WIDE.iter().map(|&saved| (wide, of(saved))));
    // Borders themselves: out of range, out of order, with nothing saved.
    let nothing = Rectangle::default();
    pairs.extend(SAVED.iter().map(|&border| (of(border), nothing)));
    pairs.push((of([-32_768, 0, 32_768, 1]), nothing));
    pairs
}

/// Every pair in the selection and in each alpha channel; plane lengths follow.
pub fn areas(base: &Picture, cases: &mut Vec<Case>) {
    for (border, saved) in pairs() {
        for area in 0..base.clone().areas_mut().len() {
            let mut changed = base.clone();
            let mut areas = changed.areas_mut();
            areas[area].border = border;
            areas[area].saved = saved;
            cases.push(listing(changed.bytes()));
        }
    }
}

/// Every pair as image and as mask of each layer; plane lengths follow.
pub fn all(base: &Picture, cases: &mut Vec<Case>) {
    for (border, saved) in pairs() {
        for layer in 0..base.layers().len() {
            for mask in [false, true] {
                let mut changed = base.clone();
                let mut layers = changed.layers_mut();
                if mask {
                    layers[layer].mask_border = border;
                    layers[layer].mask_saved = saved;
                } else {
                    layers[layer].image_border = border;
                    layers[layer].image_saved = saved;
                }
                cases.push(listing(changed.bytes()));
            }
        }
    }
}
