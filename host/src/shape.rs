//! The shape of a channel's plane, by the image and the rectangle that it has.

use crate::psp::ffi::{ImageChunk, Rect};

/// Left, top, width, height.
pub fn sides(r: &Rect) -> [i64; 4] {
    let [left, top, right, bottom] = [r.left, r.top, r.right, r.bottom].map(i64::from);
    [left, top, right - left, bottom - top]
}

/// Bits of a pixel in the planes of a bitmap.
pub fn bits(image: &ImageChunk, bitmap: u32) -> u16 {
    match image.depth {
        depth if bitmap == 0 && depth < 8 => depth,
        _ => 8,
    }
}

/// The lengths that a plane may have: that of rows padded to 4 bytes, and that of rows without
/// padding where these are permitted and it is another.
pub fn lengths(width: i64, height: i64, bits: u16) -> (i64, Option<i64>) {
    let padded = (width * i64::from(bits) + 31) / 32 * 4 * height;
    let short = width * height;
    // Below 8 bits rows are padded in every file.
    (padded, Some(short).filter(|_| bits == 8 && short != padded))
}

#[cfg(test)]
mod tests {
    use super::*;

    #[test]
    fn sides_are_corners_apart() {
        let r = Rect {
            left: -8,
            top: -4,
            right: 16,
            bottom: 8,
        };
        assert_eq!(sides(&r), [-8, -4, 24, 12]);
    }

    #[test]
    fn a_plane_of_8_bits_has_either_length() {
        assert_eq!(lengths(9, 3, 8), (36, Some(27)));
        assert_eq!(lengths(1, 1, 8), (4, Some(1)));
        let most = (900_000_000, Some(899_970_000));
        assert_eq!(lengths(29_999, 30_000, 8), most);
    }

    #[test]
    fn equal_lengths_are_one() {
        assert_eq!(lengths(96, 64, 8), (6_144, None));
        assert_eq!(lengths(9, 0, 8), (0, None));
        assert_eq!(lengths(0, 9, 8), (0, None));
    }

    #[test]
    fn below_8_bits_rows_are_padded() {
        assert_eq!(lengths(32, 1, 1), (4, None));
        assert_eq!(lengths(33, 2, 1), (16, None));
        assert_eq!(lengths(9, 3, 4), (24, None));
    }
}
