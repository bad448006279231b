//! Plane lengths of both forms of a row, and off by one, in every sort of
//! channel: colours at every depth, and both masks.

use super::sweeps::listing;
use crate::case::Case;
use crate::psp::rectangle::Rectangle;
use crate::write::{Form, Image, InBank, InLayer, Layer, Picture};

/// Depth, and whether it is grey.
pub const DEPTHS: [(u16, bool); 5] = [(1, false), (4, false), (8, true), (8, false), (24, false)];

/// Sides of the saved rectangles: small ones, where lengths of one form and one
/// off the other meet and planes have no pixels; one
/// of 4,096, and the largest.
pub fn sizes() -> Vec<[i32; 2]> {
    let small = (0..=9).flat_map(|width| (0..=3).map(move |height| [width, height]));
    let large = (29_997..=30_000).flat_map(|width| [1, 30_000].map(|height| [width, height]));
    small.chain([[4_095, 4_096]]).chain(large).collect()
}

pub fn all(cases: &mut Vec<Case>) {
    for (depth, grey) in DEPTHS {
        let sizes = sizes();
        // Of other sides than the image's, so that a wrong rectangle shows.
        for (&image, &mask) in sizes.iter().zip(sizes.iter().rev()) {
            let picture = picture(depth, grey, image, mask);
            let channels = picture.layers()[0].inside.len();
            for at in 0..channels {
                plane_lengths(&picture, at, cases);
            }
        }
    }
}

/// A picture of one layer: its colours and the transparency mask of the first
/// sides, the user mask of the second. The listing looks at no content, so none
/// is there.
pub fn picture(depth: u16, grey: bool, sides: [i32; 2], mask_sides: [i32; 2]) -> Picture {
    let [saved, masked] = [sides, mask_sides].map(|[wide, high]| Rectangle::new(0, 0, wide, high));
    let image = Image::new(depth, grey);
    let mut layer = Layer::new(saved);
    layer.mask_border = masked;
    layer.mask_saved = masked;
    for channel in image.colour_codes() {
        layer = layer.with(0, channel, Vec::new());
    }
    let layer = layer.with(1, 0, Vec::new()).with(2, 0, Vec::new());
    Picture::new(image)
        .palette(vec![[0; 4]])
        .bank(vec![InBank::Layer(layer)])
}

/// The lengths of both forms and one off each in a channel; the others stay
/// padded.
fn plane_lengths(picture: &Picture, at: usize, cases: &mut Vec<Case>) {
    let layer = picture.layers()[0];
    let bitmap = match &layer.inside[at] {
        InLayer::Channel(channel) => channel.bitmap,
        InLayer::Skipped(_) => return,
    };
    for form in Form::BOTH {
        let length = layer.plane_length(&picture.image, bitmap, form) as u32;
        for near in [length.wrapping_sub(1), length, length + 1] {
            cases.push(listing(with_length(picture, at, near).bytes()));
        }
    }
}

/// The picture with the plane length of one channel changed.
pub fn with_length(picture: &Picture, at: usize, length: u32) -> Picture {
    let mut changed = picture.clone();
    for layer in changed.layers_mut() {
        if let Some(InLayer::Channel(channel)) = layer.inside.get_mut(at) {
            channel.plane = Some(length);
        }
    }
    changed
}
