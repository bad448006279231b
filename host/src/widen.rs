//! Planes of 1 and 4 bits a pixel as planes of one byte a pixel, which placing takes.

/// A plane of one byte a pixel, and how many bytes a row of it has.
#[derive(Debug, PartialEq, Eq)]
pub struct Plane {
    pub bytes: Vec<u8>,
    pub row: u32,
}

/// The same pixels at one byte each. A plane that has them so stays as it is, padded or not; spread
/// pixels have no padding. None if a row is too short for its pixels, the plane has a part of a row,
/// bits is not 1, 4 or 8, or memory has no room.
pub fn widen(plane: Vec<u8>, row: u32, width: u32, bits: u16) -> Option<Plane> {
    match bits {
        8 => Some(Plane { bytes: plane, row }),
        1 | 4 => {
            let [row, pixels, bits] = [row, width, u32::from(bits)].map(|number| number as usize);
            let bytes = spread(&plane, row, pixels, bits)?;
            Some(Plane { bytes, row: width })
        }
        _ => None,
    }
}

/// The first pixel of a byte stands in its most significant bits.
fn spread(plane: &[u8], row: usize, width: usize, bits: usize) -> Option<Vec<u8>> {
    // Chunks of 0 bytes do not exist; of a plane of width 0 nothing is taken.
    let lines = plane.chunks_exact(row.max(1));
    if row.checked_mul(8 / bits)? < width || !lines.remainder().is_empty() {
        return None;
    }
    let mut bytes = Vec::new();
    let length = width.checked_mul(lines.len())?;
    bytes.try_reserve_exact(length).ok()?;
    for line in lines {
        bytes.extend(pixels(line, bits).take(width));
    }
    Some(bytes)
}

fn pixels(line: &[u8], bits: usize) -> impl Iterator<Item = u8> + '_ {
    let mask = ((1u32 << bits) - 1) as u8;
    let shifts = move || (0..8 / bits).rev().map(move |left| left * bits);
    line.iter()
        .flat_map(move |&byte| shifts().map(move |shift| (byte >> shift) & mask))
}

#[cfg(test)]
mod tests {
    use super::*;

    fn plane(bytes: &[u8], row: u32) -> Option<Plane> {
        let bytes = bytes.to_vec();
        Some(Plane { bytes, row })
    }

    #[test]
    fn the_first_pixel_is_the_most_significant() {
        let one = widen(vec![0b1010_0000, 0, 0, 0], 4, 5, 1);
        assert_eq!(one, plane(&[1, 0, 1, 0, 0], 5));
        let four = widen(vec![0x12, 0x30, 0, 0, 0xF0, 0xE0, 9, 9], 4, 3, 4);
        assert_eq!(four, plane(&[1, 2, 3, 15, 0, 14], 3));
    }

    #[test]
    fn eight_bits_stay_padded_or_not() {
        assert_eq!(widen(vec![7, 8, 9, 5], 4, 3, 8), plane(&[7, 8, 9, 5], 4));
        assert_eq!(widen(vec![7, 8, 9], 3, 3, 8), plane(&[7, 8, 9], 3));
    }

    #[test]
    fn what_is_no_such_plane_is_none() {
        assert_eq!(widen(vec![0; 5], 4, 3, 4), None);
        assert_eq!(widen(vec![0; 4], 4, 9, 4), None);
        assert_eq!(widen(vec![0; 4], 4, u32::MAX, 1), None);
        assert_eq!(widen(vec![0; 4], 4, 3, 2), None);
    }

    #[test]
    fn a_plane_without_pixels_is_empty() {
        assert_eq!(widen(vec![], 0, 0, 1), plane(&[], 0));
        assert_eq!(widen(vec![], 8, 9, 4), plane(&[], 9));
    }
}
