//! Rectangles: signed corners, the lower right one exclusive.

use super::{GREATEST_COORDINATE, LEAST_COORDINATE, SIDE_LIMIT};
use std::iter;

#[derive(Clone, Copy, Debug, Default, PartialEq, Eq)]
pub struct Rectangle {
    pub left: i32,
    pub top: i32,
    pub right: i32,
    pub bottom: i32,
}

impl Rectangle {
    pub fn new(left: i32, top: i32, right: i32, bottom: i32) -> Rectangle {
        Rectangle {
            left,
            top,
            right,
            bottom,
        }
    }

    pub fn corners(&self) -> [i32; 4] {
        [self.left, self.top, self.right, self.bottom]
    }

    /// Negative if the corners are out of order; 64 bits hold any difference.
    pub fn width(&self) -> i64 {
        i64::from(self.right) - i64::from(self.left)
    }

    pub fn height(&self) -> i64 {
        i64::from(self.bottom) - i64::from(self.top)
    }

    /// Coordinates in range and corners in order on both axes: the rules of
    /// every rectangle, borders included.
    pub fn is_permitted(&self) -> bool {
        let in_range =
            |coordinate: &i32| (LEAST_COORDINATE..=GREATEST_COORDINATE).contains(coordinate);
        self.corners().iter().all(in_range) && self.width() >= 0 && self.height() >= 0
    }

    /// The rules of a saved rectangle that look at nothing else: those of
    /// every rectangle, and sides of at most 30,000.
    pub fn is_permitted_as_saved(&self) -> bool {
        self.is_permitted() && self.width() <= SIDE_LIMIT && self.height() <= SIDE_LIMIT
    }

    /// Of a rectangle in order: equal corners on an axis.
    pub fn is_empty(&self) -> bool {
        self.left == self.right || self.top == self.bottom
    }

    pub fn lies_inside(&self, border: &Rectangle) -> bool {
        border.left <= self.left
            && border.top <= self.top
            && self.right <= border.right
            && self.bottom <= border.bottom
    }
}

/// The pixels that both rectangles have; 0,0,0,0 if there are none.
///
/// A rectangle with corners out of order on an axis has no pixels there, and
/// neither has the span between the greater low and the lesser high corner.
pub fn intersection(one: Rectangle, other: Rectangle) -> Rectangle {
    let shared = Rectangle {
        left: one.left.max(other.left),
        top: one.top.max(other.top),
        right: one.right.min(other.right),
        bottom: one.bottom.min(other.bottom),
    };
    if shared.left < shared.right && shared.top < shared.bottom {
        shared
    } else {
        Rectangle::default()
    }
}

/// Bytes of a padded row: pixels of that many bits in whole groups of four
/// bytes.
pub fn padded_row(width: u64, bits: u64) -> u64 {
    let used = width.saturating_mul(bits);
    let groups = used / 32 + u64::from(used % 32 != 0);
    4 * groups
}

/// The bytes that a row may have, in the order in which they are tried: padded,
/// and for pixels of a byte each also without padding.
pub fn rows(width: u64, bits: u64) -> impl Iterator<Item = u64> {
    let unpadded = Some(width).filter(|_| bits == 8);
    iter::once(padded_row(width, bits)).chain(unpadded)
}
