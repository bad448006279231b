//! Selections and alpha channels. GIMP 2.10 passes over both, and so does
//! ExifTool: what is in them, of any width and in either form, changes nothing
//! of what they say.

use super::layers::{joined, pixels};
use crate::psp::planes::packed_form;
use crate::psp::rectangle::Rectangle;
use crate::random::Random;
use crate::write::{self, Alpha, Area, Form, Image, InAlphaBank, Picture};

/// Adds a selection and up to three alpha channels, or one of both, or neither.
pub fn added(mut picture: Picture, random: &mut Random) -> Picture {
    let image = picture.image.clone();
    if !random.one_in(3) {
        picture = picture.selection(area(write::SELECTION, &image, random));
    }
    if !random.one_in(3) {
        let alphas = (0..random.below(4)).map(|number| {
            let name = format!("Alpha {}", 3 - number);
            let area = area(write::ALPHA, &image, random);
            InAlphaBank::Alpha(Alpha::new(&name, area))
        });
        let alphas = alphas.collect();
        picture = picture.alphas(alphas);
    }
    picture
}

/// A part of the image, which may be empty.
fn area(bitmap: u16, image: &Image, random: &mut Random) -> Area {
    let [width, height] = [image.width, image.height].map(i64::from);
    let left = random.between(0, width);
    let top = random.between(0, height);
    let right = random.between(left, width);
    let bottom = random.between(top, height);
    let [left, top, right, bottom] = [left, top, right, bottom].map(|corner| corner as i32);
    let saved = Rectangle::new(left, top, right, bottom);
    let border = Rectangle::new(0, 0, width as i32, height as i32);
    let form = random.pick(&Form::BOTH);
    let plane = plane(saved, form, random);
    let content = match image.compression {
        0 => plane,
        _ => packed_form(&plane),
    };
    Area::new(saved)
        .within(border)
        .with_rows(form, bitmap, content)
}

fn plane(saved: Rectangle, form: Form, random: &mut Random) -> Vec<u8> {
    let [width, height] = [saved.width(), saved.height()].map(|side| side as usize);
    let row = form.row(width as u64, 8) as usize;
    pixels(width * height, 256, random)
        .chunks(width.max(1))
        .flat_map(|line| joined(line, 8, row))
        .collect()
}
