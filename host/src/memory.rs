//! How much memory a picture takes, said before it is asked for where it is much.

use crate::psp::ffi::Entry;
use crate::words::{grouped, grouped_bytes};

/// What the largest plane and the largest canvas took together while a side had at most 4,096 pixels,
/// 16,777,216 bytes each. Up to here nothing is said, so that whoever calls the command for such
/// sheets finds on standard error what was there before.
const UNSAID: u64 = 33_554_432;

/// The sentence on a channel of so many bits a pixel and a canvas of these sides, where it is much.
pub fn sentence(entry: &Entry, [width, height]: [u32; 2], bits: u16) -> Option<String> {
    let product = |width: u32, height: u32| u64::from(width) * u64::from(height);
    // Pixels of fewer bits are spread to be placed, and the plane is then there in both forms.
    let (packed, plane) = match (bits, u64::from(entry.plane)) {
        (8, length) => (0, length),
        (_, length) => (length, product(entry.width, entry.height)),
    };
    let canvas = product(width, height);
    if plane + canvas <= UNSAID {
        return None;
    }
    Some(format!(
        "the plane takes {} of memory, and the canvas of {} by {} pixels {} more",
        grouped_bytes(packed + plane),
        grouped(width),
        grouped(height),
        grouped(canvas as i64)
    ))
}

#[cfg(test)]
mod tests {
    use super::*;

    /// Of a plane by its sides and its length.
    fn said([width, height, plane]: [u32; 3], canvas: [u32; 2], bits: u16) -> Option<String> {
        let entry = Entry {
            width,
            height,
            plane,
            ..Entry::default()
        };
        sentence(&entry, canvas, bits)
    }

    #[test]
    fn what_was_the_most_before_is_not_said() {
        let most = [4_096, 4_096, 16_777_216];
        assert_eq!(said(most, [4_096, 4_096], 8), None);
        assert_eq!(said([4_096, 4_096, 8_388_608], [4_096, 4_096], 4), None);
        assert!(said(most, [4_096, 4_097], 8).is_some());
        assert!(said([4_097, 4_096, 0], [4_096, 4_096], 1).is_some());
        let told = grouped(UNSAID as i64);
        assert!(include_str!("plane.rs").contains(&told), "{}", told);
    }

    #[test]
    fn bytes_and_sides_are_told() {
        let told = |bytes: &str| {
            Some(format!(
                "the plane takes {} bytes of memory, \
                 and the canvas of 30,000 by 30,000 pixels 900,000,000 more",
                bytes
            ))
        };
        let sides = [30_000, 30_000];
        let whole = said([30_000, 30_000, 900_000_000], sides, 8);
        assert_eq!(whole, told("900,000,000"));
        let bits = said([30_000, 30_000, 112_560_000], sides, 1);
        assert_eq!(bits, told("1,012,560,000"));
        assert_eq!(said([0, 7, 0], sides, 8), told("0"));
    }
}
