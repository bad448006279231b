//! A border, and the saved rectangle inside it.

use super::block::field;
use super::refusal::{refuse, Number, Walked};

pub const SIDE_LIMIT: i64 = 30_000;

/// The sides of a saved rectangle.
#[derive(Clone, Copy, Default)]
pub struct Sides {
    pub width: u32,
    pub height: u32,
}

/// Judges the border at an offset of a chunk and the saved rectangle behind it. Gives the sides of the
/// latter.
#[inline(always)]
pub fn saved(chunk: &[u8], at: usize, chunk_start: usize) -> Walked<Sides> {
    match plain(chunk, at) {
        Some(sides) => Ok(sides),
        None => any(chunk, at, chunk_start),
    }
}

#[inline(always)]
fn corner(chunk: &[u8], at: usize) -> i64 {
    i64::from(i32::from_le_bytes(field(chunk, at)))
}

/// A saved rectangle that lies inside its border. Where it is in order, so is the border, and limits
/// of the border's outer side are enough.
#[inline(always)]
fn plain(chunk: &[u8], at: usize) -> Option<Sides> {
    let border = corner(chunk, at);
    let left = corner(chunk, at + 16);
    if border < -32_768 || left < border {
        return None;
    }
    let border = corner(chunk, at + 4);
    let top = corner(chunk, at + 20);
    if border < -32_768 || top < border {
        return None;
    }
    let border = corner(chunk, at + 8);
    let right = corner(chunk, at + 24);
    if border > 32_767 || right > border {
        return None;
    }
    let border = corner(chunk, at + 12);
    let bottom = corner(chunk, at + 28);
    if border > 32_767 || bottom > border {
        return None;
    }
    let (width, height) = (right - left, bottom - top);
    if width as u64 > SIDE_LIMIT as u64 || height as u64 > SIDE_LIMIT as u64 {
        return None;
    }
    Some(Sides {
        width: width as u32,
        height: height as u32,
    })
}

/// All that is permitted: empty ones may lie anywhere.
#[cold]
#[inline(never)]
fn any(chunk: &[u8], at: usize, chunk_start: usize) -> Walked<Sides> {
    let rectangle = |at| [0, 4, 8, 12].map(|offset| corner(chunk, at + offset));
    let [a, b, c, d] = rectangle(at);
    let [left, top, right, bottom] = rectangle(at + 16);
    let is_near = |corners: [i64; 4]| corners.iter().all(|c| (-32_768..32_768).contains(c));
    if !is_near([a, b, c, d]) || a > c || b > d {
        return refuse(Number::WrongField, chunk_start + at);
    }
    let (width, height) = (right - left, bottom - top);
    let is_side = |side| (0..=SIDE_LIMIT).contains(&side);
    let is_inside = a <= left && b <= top && right <= c && bottom <= d;
    let is_empty = width == 0 || height == 0;
    if !is_near([left, top, right, bottom])
        || !is_side(width)
        || !is_side(height)
        || !(is_inside || is_empty)
    {
        return refuse(Number::WrongField, chunk_start + at + 16);
    }
    Ok(Sides {
        width: width as u32,
        height: height as u32,
    })
}
