//! The files: every depth, raw and in run lengths, as far as GIMP 2.10 reads
//! them soundly. Where docs/FIELD.md names a limit of GIMP, the word limit
//! stands here and in the files beside this one.

use super::areas;
use super::creator::{self, Field};
use super::layers::{layer, names, Inside, Masks, Widths};
use crate::random::Random;
use crate::write::{Image, InBank, Picture};

pub struct File {
    pub name: String,
    pub picture: Picture,
    pub creator: Vec<Field>,
}

struct Subject {
    name: &'static str,
    depth: u16,
    grey: bool,
    layers: usize,
    masks: Masks,
    widths: Widths,
}

const fn colour(name: &'static str, layers: usize, masks: Masks) -> Subject {
    Subject {
        name,
        depth: 24,
        grey: false,
        layers,
        masks,
        widths: Widths::Whole,
    }
}

/// Limit: no mask below 24 bits.
const fn grey(name: &'static str, layers: usize) -> Subject {
    Subject {
        name,
        depth: 8,
        grey: true,
        layers,
        masks: Masks::Without,
        widths: Widths::Whole,
    }
}

const fn palette(name: &'static str, depth: u16) -> Subject {
    Subject {
        name,
        depth,
        grey: false,
        layers: 1,
        masks: Masks::Without,
        widths: Widths::Whole,
    }
}

/// The subject with rows as GIMP takes them, without padding. The first layer
/// has that width, and each one more a pixel more.
const fn unpadded(subject: Subject, first: i64) -> Subject {
    Subject {
        widths: Widths::From(first),
        ..subject
    }
}

/// Paletted images have one layer: a width needs a file.
const SUBJECTS: [Subject; 26] = [
    colour("layers-1", 1, Masks::Without),
    colour("layers-2", 2, Masks::Without),
    colour("layers-11", 11, Masks::Without),
    colour("layers-64", 64, Masks::Without),
    colour("transparency-1", 1, Masks::Transparency),
    colour("transparency-11", 11, Masks::Transparency),
    colour("user-mask-1", 1, Masks::TransparencyAndUser),
    colour("user-mask-11", 11, Masks::TransparencyAndUser),
    grey("grey-1", 1),
    grey("grey-11", 11),
    palette("palette-8", 8),
    palette("palette-4", 4),
    palette("palette-1", 1),
    unpadded(colour("unpadded-layers", 9, Masks::Without), 1),
    unpadded(colour("unpadded-transparency", 9, Masks::Transparency), 1),
    unpadded(
        colour("unpadded-user-mask", 9, Masks::TransparencyAndUser),
        1,
    ),
    unpadded(grey("unpadded-grey", 9), 1),
    unpadded(palette("unpadded-palette-1", 8), 1),
    unpadded(palette("unpadded-palette-2", 8), 2),
    unpadded(palette("unpadded-palette-3", 8), 3),
    unpadded(palette("unpadded-palette-4", 8), 4),
    unpadded(palette("unpadded-palette-5", 8), 5),
    unpadded(palette("unpadded-palette-6", 8), 6),
    unpadded(palette("unpadded-palette-7", 8), 7),
    unpadded(palette("unpadded-palette-8", 8), 8),
    unpadded(palette("unpadded-palette-9", 8), 9),
];

/// Metric and value.
const RESOLUTIONS: [(u8, f64); 5] = [(0, 100.0), (1, 72.0), (1, 96.5), (2, 28.5), (2, 118.0)];

const CREATOR: u16 = 1;
const THUMBNAIL: u16 = 9;

/// Ids of other main blocks that a reader has to pass over, whatever is in
/// them. Limits: no block of an unknown id inside bank or layer, and not 11, a
/// tube block, on which GIMP may loop for ever.
const SKIPPED: [u16; 3] = [12, 1_000, 65_535];

/// Every subject raw and in run lengths, from one source of numbers.
pub fn all(random: &mut Random) -> Vec<File> {
    let mut files = Vec::new();
    for (compression, word) in [(0, "raw"), (1, "runs")] {
        for subject in &SUBJECTS {
            let creator = creator::fields(random);
            files.push(File {
                name: format!("{}-{}", subject.name, word),
                picture: picture(subject, compression, &creator, random),
                creator,
            });
        }
    }
    files
}

fn picture(subject: &Subject, compression: u16, creator: &[Field], random: &mut Random) -> Picture {
    let image = image(subject, compression, random);
    let paletted = subject.depth < 24 && !subject.grey;
    let colours = if paletted {
        random.between(2, 1 << subject.depth)
    } else {
        256
    };
    let inside = Inside {
        image: &image,
        colours,
        masks: subject.masks,
        widths: subject.widths,
    };
    let layers = (0..)
        .zip(names(subject.layers, random))
        .map(|(k, name)| InBank::Layer(layer(k, &name, &inside, random)))
        .collect();
    let mut picture = Picture::new(image)
        .skipped(THUMBNAIL, 24, random.bytes(30))
        .bank(layers);
    if paletted {
        let entry = |_| [random.byte(), random.byte(), random.byte(), 0];
        picture = picture.palette((0..colours).map(entry).collect());
    }
    if !creator.is_empty() {
        picture = picture.skipped(CREATOR, 0, creator::block(creator));
    }
    for id in SKIPPED {
        let length = random.index(40);
        picture = picture.skipped(id, 0, random.bytes(length));
    }
    picture = areas::added(picture, random);
    // The thumbnail may not follow the bank; the others have no order.
    random.shuffle(&mut picture.main[1..]);
    picture
}

fn image(subject: &Subject, compression: u16, random: &mut Random) -> Image {
    let (metric, resolution) = random.pick(&RESOLUTIONS);
    Image {
        width: random.between(64, 80) as u32,
        height: random.between(6, 12) as u32,
        resolution: resolution.to_bits(),
        metric,
        compression,
        ..Image::new(subject.depth, subject.grey)
    }
}
