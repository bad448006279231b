//! Placing an 8-bit plane on a canvas.

use super::number;
use super::rectangle::{rows, Rectangle};
use super::SIDE_LIMIT;

/// Gives each canvas pixel inside the rectangle its byte of the plane, whose
/// rows have that many bytes; returns the answer number. Padding and outside
/// pixels take no part.
pub fn place(
    width: u32,
    height: u32,
    canvas: &mut [u8],
    saved: Rectangle,
    plane: &[u8],
    row: u32,
) -> u32 {
    let side = |length: u32| (1..=SIDE_LIMIT).contains(&i64::from(length));
    if !side(width) || !side(height) {
        return number::CANVAS_WRONG;
    }
    if canvas.len() as u64 != u64::from(width) * u64::from(height) {
        return number::CANVAS_WRONG;
    }
    if !saved.is_permitted_as_saved() {
        return number::RECTANGLE_WRONG;
    }
    let row = u64::from(row);
    let is_form = rows(saved.width().unsigned_abs(), 8).any(|form| form == row);
    if !is_form || plane.len() as u64 != row * saved.height().unsigned_abs() {
        return number::PLANE_WRONG;
    }
    // Pixel by pixel, asking the plane for each: slow, and plainly the text.
    for (index, pixel) in canvas.iter_mut().enumerate() {
        let x = (index as u64 % u64::from(width)) as i64;
        let y = (index as u64 / u64::from(width)) as i64;
        let column = x - i64::from(saved.left);
        let line = y - i64::from(saved.top);
        let inside = (0..saved.width()).contains(&column) && (0..saved.height()).contains(&line);
        if inside {
            let at = line as u64 * row + column as u64;
            if let Some(&byte) = plane.get(at as usize) {
                *pixel = byte;
            }
        }
    }
    number::ACCEPTED
}
