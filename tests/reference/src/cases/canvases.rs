//! Canvases, and rectangles on and off them, with planes of both forms.

use crate::case::{Case, Placing, CANVAS_LIMIT};
use crate::psp::rectangle::Rectangle;
use crate::random::Random;
use crate::write::Form;

/// Bytes of a row of 8-bit pixels.
fn row(form: Form, width: i64) -> i64 {
    form.row(width as u64, 8) as i64
}

fn rectangle(corners: [i64; 4]) -> Rectangle {
    let [left, top, right, bottom] = corners.map(|corner| corner as i32);
    Rectangle::new(left, top, right, bottom)
}

/// A canvas and a rectangle on or off it.
pub fn canvas(random: &mut Random) -> Case {
    let (width, height) = sides(random);
    let left = random.between(-10, width + 3);
    let top = random.between(-10, height + 3);
    let (wide, high) = extent(random);
    let mut corners = [left, top, left + wide, top + high];
    spoil_rectangle(random, &mut corners);
    let (row, plane_length) = plane(random, wide, high);
    let (width, height, canvas_length) = spoil_canvas(random, width, height);
    let canvas = random.bytes(held(canvas_length));
    Case::Canvas {
        placing: Placing {
            width: width as u32,
            height: height as u32,
            rectangle: rectangle(corners),
            row: row as u32,
        },
        canvas,
        plane: random.bytes(plane_length.clamp(0, 125_000) as usize),
    }
}

/// So many bytes, or 20,000 where a case cannot hold them.
fn held(length: i64) -> usize {
    let holds = (0..=i64::from(CANVAS_LIMIT)).contains(&length);
    if holds {
        length as usize
    } else {
        20_000
    }
}

fn sides(random: &mut Random) -> (i64, i64) {
    match random.below(8) {
        0 => long_and_short(random),
        1 => {
            let (height, width) = long_and_short(random);
            (width, height)
        }
        _ => (random.between(1, 24), random.between(1, 24)),
    }
}

/// Sides whose product a case can hold.
fn long_and_short(random: &mut Random) -> (i64, i64) {
    let long = random.pick(&[1, 4_095, 4_096, 4_097, 29_999, 30_000]);
    let most = (i64::from(CANVAS_LIMIT) / long).min(4);
    (long, random.between(1, most))
}

/// The sides of the rectangle.
fn extent(random: &mut Random) -> (i64, i64) {
    const LONG: [i64; 5] = [4_096, 4_097, 29_999, 30_000, 30_001];
    let (wide, high) = (random.between(0, 14), random.between(0, 10));
    if random.one_in(12) {
        (random.pick(&LONG), random.between(0, 4))
    } else if random.one_in(12) {
        (random.between(0, 4), random.pick(&LONG))
    } else {
        (wide, high)
    }
}

/// Spoils the corners, or leaves them good.
fn spoil_rectangle(random: &mut Random, corners: &mut [i64; 4]) {
    match random.below(16) {
        0 => corners.swap(0, 2),
        1 => corners.swap(1, 3),
        2 => {
            let shift = random.pick(&[-32_768, -32_769, 32_767, 32_768]);
            let axis = random.index(2);
            let side = corners[axis + 2] - corners[axis];
            // Against either limit, from inside or from outside.
            corners[axis] = if shift < 0 { shift } else { shift - side };
            corners[axis + 2] = corners[axis] + side;
        }
        3 => {
            let at = random.index(4);
            let (least, greatest) = (i64::from(i32::MIN), i64::from(i32::MAX));
            corners[at] = random.pick(&[least, greatest, -32_769, -32_768, 32_767, 32_768]);
        }
        _ => {}
    }
}

/// The row and the length of a plane of either form; at times one of them, or
/// both together, are of no form.
fn plane(random: &mut Random, wide: i64, high: i64) -> (i64, i64) {
    let row = row(random.pick(&Form::BOTH), wide);
    let other = match random.below(4) {
        0 => wide,
        1 => random.pick(&[0, 1 << 30, 1 << 31, u32::MAX.into()]),
        _ => row + random.pick(&[-4, -1, 1, 4]),
    };
    match random.below(20) {
        0 => (row, row * high + random.pick(&[-4, -1, 1, 4])),
        1 => (row, other * high),
        2 => (other, row * high),
        3 => (other, other * high & 0xFFFF_FFFF),
        _ => (row, row * high),
    }
}

/// Spoils a side or the canvas's length, or leaves both good.
fn spoil_canvas(random: &mut Random, width: i64, height: i64) -> (i64, i64, i64) {
    const SIDES: [i64; 5] = [0, 30_001, 65_536, 0x8000_0000, 0xFFFF_FFFF];
    let length = width * height;
    match random.below(24) {
        0 => (width, height, length + random.pick(&[-1, 1, width])),
        1 => (width, height, 0),
        2 => {
            let width = random.pick(&SIDES);
            (width, height, (width * height) & 0xFFFF_FFFF)
        }
        3 => {
            let height = random.pick(&SIDES);
            (width, height, (width * height) & 0xFFFF_FFFF)
        }
        _ => (width, height, length),
    }
}

/// The systematic cases.
pub fn all(cases: &mut Vec<Case>) {
    cases.push(Case::Canvas {
        placing: Placing {
            width: 3,
            height: 2,
            rectangle: Rectangle::new(-1, 1, 1, 2),
            row: 4,
        },
        canvas: vec![0xEE; 6],
        plane: vec![0x10, 0x11, 0, 0],
    });
    on_every_side(cases);
    rows_around(cases);
    rows_that_wrap(cases);
    sides_at_limits(cases);
    largest(cases);
    rectangles_at_limits(cases);
}

/// Every one of the first with every one of the second.
fn pairs(
    first: impl IntoIterator<Item = i64>,
    second: impl IntoIterator<Item = i64> + Clone,
) -> Vec<[i64; 2]> {
    let with_second = |one| second.clone().into_iter().map(move |other| [one, other]);
    first.into_iter().flat_map(with_second).collect()
}

/// A rectangle of a size with its corner on or off a canvas of 5 by 4. Bytes of
/// the plane differ, so that a wrong one shows.
fn on_small(corner: [i64; 2], size: [i64; 2], row: i64, plane: i64) -> Case {
    let ([left, top], [wide, high]) = (corner, size);
    Case::Canvas {
        placing: Placing {
            width: 5,
            height: 4,
            rectangle: rectangle([left, top, left + wide, top + high]),
            row: row as u32,
        },
        canvas: vec![0xEE; 20],
        plane: (0..plane).map(|at| at as u8).collect(),
    }
}

/// A rectangle on every side of a canvas and off it, of every small size.
fn on_every_side(cases: &mut Vec<Case>) {
    let corners = pairs(-6..=6, [-4, -3, -1, 0, 1, 3, 4]);
    let sizes = pairs([0, 1, 2, 3, 4, 5, 11], [0, 1, 3, 9]);
    for form in Form::BOTH {
        for &[wide, high] in &sizes {
            let row = row(form, wide);
            let placed = |&corner| on_small(corner, [wide, high], row, row * high);
            cases.extend(corners.iter().map(placed));
        }
    }
}

/// Rows of each form and off by one, with planes of so many rows and off by
/// one: in the middle, past each side and off the canvas. Empty rectangles have
/// rows, too.
fn rows_around(cases: &mut Vec<Case>) {
    const CORNERS: [[i64; 2]; 7] = [[1, 1], [-1, 1], [1, -1], [4, 1], [1, 3], [5, 4], [-30, -30]];
    for size in pairs(0..=9, 0..=3) {
        let rows = Form::BOTH.map(|form| row(form, size[0]));
        for [row, off] in pairs(rows, -1..=1) {
            let row = row + off;
            let lengths = (-1..=1).map(|off| row * size[1] + off);
            for length in lengths.filter(|&length| length >= 0) {
                cases.extend(CORNERS.map(|corner| on_small(corner, size, row, length)));
            }
        }
    }
}

/// Rows whose product with the height is past 32 bits, and what is left of it
/// there is a plane that either form could have.
fn rows_that_wrap(cases: &mut Vec<Case>) {
    for [wide, high] in pairs([0, 1, 4, 5], [0, 2, 4]) {
        for form in Form::BOTH {
            let length = row(form, wide) * high;
            for more in [1 << 30, 1 << 31, 3 << 30] {
                let row = row(form, wide) + more;
                cases.push(on_small([0, 0], [wide, high], row, length));
            }
        }
    }
}

/// Sides at their limits, with lengths right, wrong and wrapped.
fn sides_at_limits(cases: &mut Vec<Case>) {
    const SIDES: [u32; 11] = [
        0,
        1,
        2,
        4,
        4_097,
        29_999,
        30_000,
        30_001,
        65_536,
        0x8000_0000,
        0xFFFF_FFFF,
    ];
    const MOST: u64 = CANVAS_LIMIT as u64;
    // Several refusals at once: the canvas speaks first, then the rectangle.
    let rectangles = [Rectangle::new(0, 0, 1, 1), Rectangle::new(1, 1, 0, 0)];
    for width in SIDES {
        for height in SIDES {
            let product = u64::from(width) * u64::from(height);
            let wrapped = product & 0xFFFF_FFFF;
            let lengths = [product, wrapped, product + 1, product.saturating_sub(1)];
            for length in lengths.iter().filter(|&&length| length <= MOST) {
                cases.extend(rectangles.iter().map(|&rectangle| Case::Canvas {
                    placing: Placing {
                        width,
                        height,
                        rectangle,
                        row: 4,
                    },
                    canvas: vec![1; *length as usize],
                    plane: vec![2; 4],
                }));
            }
        }
    }
}

/// Rectangles about as long as the longest canvases, hanging over at each end.
fn largest(cases: &mut Vec<Case>) {
    for [long, corner] in pairs([29_997, 29_999, 30_000], [-29_996, -1, 0, 1, 2_767]) {
        let lying = [corner, 0, corner + long, 1];
        let standing = [0, corner, 1, corner + long];
        for (corners, width, height) in [(lying, 30_000, 2), (standing, 2, 30_000)] {
            let rectangle = rectangle(corners);
            cases.extend(Form::BOTH.map(|form| {
                let row = row(form, rectangle.width());
                Case::Canvas {
                    placing: Placing {
                        width,
                        height,
                        rectangle,
                        row: row as u32,
                    },
                    canvas: vec![0xEE; 60_000],
                    plane: (0..row * rectangle.height()).map(|at| at as u8).collect(),
                }
            }));
        }
    }
}

/// Rectangles against the coordinate and side rules, planes of both forms right
/// or not.
fn rectangles_at_limits(cases: &mut Vec<Case>) {
    const EDGES: [i64; 13] = [
        i32::MIN as i64,
        -32_769,
        -32_768,
        -30_001,
        -30_000,
        -1,
        0,
        1,
        4_097,
        30_000,
        30_001,
        32_767,
        32_768,
    ];
    for [low, high] in pairs(EDGES, EDGES) {
        let lying = rectangle([low, 0, high, 1]);
        for rectangle in [lying, rectangle([0, low, 1, high])] {
            for form in Form::BOTH {
                let row = row(form, rectangle.width().clamp(0, 30_004));
                let length = (row * rectangle.height().clamp(0, 30_004)) as usize;
                cases.extend((0..2).map(|more| Case::Canvas {
                    placing: Placing {
                        width: 2,
                        height: 2,
                        rectangle,
                        row: row as u32,
                    },
                    canvas: vec![0xEE; 4],
                    plane: vec![3; length + more],
                }));
            }
        }
    }
}
