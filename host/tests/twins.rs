//! Writes pictures of each depth twice into the current folder, with the same pixels and with rows
//! in either form, pictures with a plane length that is of no form, and the largest sheet, of which
//! little is saved. Built and run by host/check.

#[path = "../../tests/reference/src"]
mod reference {
    #[allow(dead_code)]
    pub mod psp;
    #[allow(dead_code)]
    pub mod write;
}

use psp::planes::packed_form;
use psp::rectangle::Rectangle;
use reference::{psp, write};
use std::fs;
use std::io;
use write::{Alpha, Area, Form, Image, InAlphaBank, InBank, InLayer, Layer, Picture};

/// The greatest side.
const SIDE: u16 = 30_000;

/// No pixel has this byte, so padding that is taken for one shows.
const PADDING: u8 = 0xEE;

fn main() -> io::Result<()> {
    for depth in [1, 4, 8, 24] {
        for (form, name) in Form::BOTH.iter().zip(["padded", "unpadded"]) {
            let colours = if depth < 8 { Form::Padded } else { *form };
            save(depth, name, &picture(depth, colours, *form))?;
        }
    }
    save(1, "wrong", &picture(1, Form::Unpadded, Form::Unpadded))?;
    save(4, "wrong", &picture(4, Form::Unpadded, Form::Padded))?;
    save(8, "wrong", &with_length(8, 0, 23))?;
    save(24, "wrong", &with_length(24, 2, 11))?;
    fs::write("sheet.psp", sheet().bytes())
}

fn save(depth: u16, name: &str, picture: &Picture) -> io::Result<()> {
    fs::write(format!("rows{}-{}.psp", depth, name), picture.bytes())
}

/// A picture of 4 by 3 pixels with one layer of 7 by 3 that leaves it on the left, on the right and
/// below, and a user mask of 5 by 2 that leaves it above and on the right; behind it a selection and
/// an alpha channel, which leave it too; raw or packed, by its depth.
fn picture(depth: u16, colours: Form, masks: Form) -> Picture {
    let image = Image {
        width: 4,
        height: 3,
        compression: u16::from(depth == 4 || depth == 24),
        ..Image::new(depth, depth == 8)
    };
    let mut layer = Layer::new(Rectangle::new(-2, 1, 5, 4)).named("Rows");
    layer.mask_border = Rectangle::new(0, -1, 6, 3);
    layer.mask_saved = Rectangle::new(1, -1, 6, 1);
    for channel in image.colour_codes() {
        layer = with_plane(layer, &image, colours, [0, channel]);
    }
    for bitmap in [1, 2] {
        layer = with_plane(layer, &image, masks, [bitmap, 0]);
    }
    let selection = area(&image, masks, write::SELECTION, Rectangle::new(1, -1, 7, 2));
    let alpha = area(&image, masks, write::ALPHA, Rectangle::new(-1, 0, 4, 4));
    Picture::new(image)
        .palette(vec![[0; 4], [255; 4]])
        .bank(vec![InBank::Layer(layer)])
        .selection(selection)
        .alphas(vec![InAlphaBank::Alpha(Alpha::new("Rows", alpha))])
}

/// A sheet of 30,000 by 30,000 pixels with a layer of one row and an alpha channel of one column.
fn sheet() -> Picture {
    let image = Image {
        width: SIDE.into(),
        height: SIDE.into(),
        compression: 1,
        ..Image::new(8, true)
    };
    let line = packed_form(&vec![7; SIDE.into()]);
    let row = Layer::new(Rectangle::new(0, 0, SIDE.into(), 1)).named("Row");
    let row = row.with_rows(Form::Unpadded, 0, 0, line.clone());
    let column = Area::new(Rectangle::new(0, 0, 1, SIDE.into()));
    let column = column.with_rows(Form::Unpadded, write::ALPHA, line);
    Picture::new(image)
        .bank(vec![InBank::Layer(row)])
        .alphas(vec![InAlphaBank::Alpha(Alpha::new("Column", column))])
}

/// A selection, or what an alpha channel is besides its name.
fn area(image: &Image, form: Form, bitmap: u16, saved: Rectangle) -> Area {
    let row = form.row(saved.width() as u64, 8) as u8;
    let first = [100, 60][usize::from(bitmap == write::ALPHA)];
    let content = content(image, saved, row, first);
    Area::new(saved).with_rows(form, bitmap, content)
}

/// A layer with a plane whose pixels differ from each other and from those of its other planes.
fn with_plane(layer: Layer, image: &Image, form: Form, [bitmap, channel]: [u16; 2]) -> Layer {
    let saved = layer.saved(bitmap);
    let row = layer.row_length(image, bitmap, form) as u8;
    let first = [0, 160, 200][usize::from(bitmap)] + 40 * channel as u8;
    layer.with_rows(form, bitmap, channel, content(image, saved, row, first))
}

/// A plane as it is stored, its pixels counted up from the first one.
fn content(image: &Image, saved: Rectangle, row: u8, first: u8) -> Vec<u8> {
    let byte = |x: u8, y: u8| match i64::from(x) < saved.width() {
        true => first + 8 * y + x,
        false => PADDING,
    };
    let line = |y| (0..row).map(move |x| byte(x, y));
    let plane: Vec<u8> = (0..saved.height() as u8).flat_map(line).collect();
    match image.compression {
        0 => plane,
        _ => packed_form(&plane),
    }
}

/// A padded picture in which a bitmap's planes say another length.
fn with_length(depth: u16, bitmap: u16, length: u32) -> Picture {
    let mut picture = picture(depth, Form::Padded, Form::Padded);
    let layers = picture.layers_mut().into_iter();
    for part in layers.flat_map(|layer| &mut layer.inside) {
        match part {
            InLayer::Channel(channel) if channel.bitmap == bitmap => channel.plane = Some(length),
            _ => {}
        }
    }
    picture
}
