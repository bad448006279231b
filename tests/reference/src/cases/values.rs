//! Intersections and resolutions: calls without a buffer.

use super::fields::RESOLUTIONS;
use crate::case::Case;
use crate::psp::rectangle::Rectangle;
use crate::random::Random;

pub fn intersection(random: &mut Random) -> Case {
    Case::Intersection {
        one: rectangle(random),
        other: rectangle(random),
    }
}

/// Near the origin or anywhere, and half of them in order.
fn rectangle(random: &mut Random) -> Rectangle {
    let mut corners = [0; 4];
    let wild = random.one_in(3);
    for corner in corners.iter_mut() {
        let near = random.between(-4, 4) as i32;
        let any = random.next() as i32;
        let (least, greatest) = (i32::MIN, i32::MAX);
        *corner = if wild {
            random.pick(&[
                near,
                any,
                least,
                least + 1,
                -1,
                0,
                1,
                greatest - 1,
                greatest,
            ])
        } else {
            near
        };
    }
    if random.one_in(2) {
        if corners[0] > corners[2] {
            corners.swap(0, 2);
        }
        if corners[1] > corners[3] {
            corners.swap(1, 3);
        }
    }
    let [left, top, right, bottom] = corners;
    Rectangle::new(left, top, right, bottom)
}

pub fn dots(random: &mut Random) -> Case {
    let any = random.next();
    // Exponents near both ends, and values that a scanner would write.
    let subnormal = any >> 12;
    let least = any >> 9;
    let near = random
        .pick(RESOLUTIONS)
        .wrapping_add(random.below(5))
        .wrapping_sub(2);
    let plain = (random.between(1, 2_400) as f64 / 2.0).to_bits();
    let bits = random.pick(&[any, subnormal, least, near, near, plain, plain]);
    let wide = random.byte();
    Case::Dots {
        bits,
        metric: random.pick(&[0, 1, 1, 1, 1, 2, 2, 3, 255, wide]),
    }
}

/// The systematic cases.
pub fn all(cases: &mut Vec<Case>) {
    intersections(cases);
    for &bits in RESOLUTIONS {
        for metric in [0, 1, 2, 3, 4, 127, 128, 255] {
            cases.push(Case::Dots { bits, metric });
        }
    }
}

fn intersections(cases: &mut Vec<Case>) {
    let one = Rectangle::new(-2, -2, 2, 2);
    for left in -3..=3 {
        for right in -3..=3 {
            for top in [-3, -2, 0, 2].iter().copied() {
                for bottom in [-3, -1, 2, 3].iter().copied() {
                    let other = Rectangle {
                        left,
                        top,
                        right,
                        bottom,
                    };
                    cases.push(Case::Intersection { one, other });
                }
            }
        }
    }
    let wide = Rectangle::new(i32::MIN, i32::MIN, i32::MAX, i32::MAX);
    let inverted = Rectangle::new(i32::MAX, i32::MAX, i32::MIN, i32::MIN);
    for one in [wide, inverted].iter() {
        for other in [wide, inverted, Rectangle::new(0, 0, 1, 1)].iter() {
            cases.push(Case::Intersection {
                one: *one,
                other: *other,
            });
        }
    }
}
