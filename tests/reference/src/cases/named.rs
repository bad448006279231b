//! Wrong fields in each chunk of three small files, one and two at a time, with
//! the place that answer 8 gives: that of the field, and of two fields that of
//! the one which is judged first. The checks of this program hold the reference
//! to these answers, and see that every field is named, and every two are wrong
//! together.

use super::fields;
use super::sweeps::listing;
use crate::case::{Case, ROOM_LIMIT};
use crate::psp::rectangle::Rectangle;
use crate::samples;
use crate::write::{self, Alpha, Area, Image, InAlphaBank, InBank, Layer, Picture, Written};
use Named::{Chunk, Field, Header};

/// What a fault is answered with.
#[derive(Clone, Copy, Debug, PartialEq)]
pub enum Named {
    /// 8, at the field with this offset in the chunk.
    Field(usize),
    /// Another number, at the chunk's start.
    Chunk(u32),
    /// Another number, at the block's header.
    Header(u32),
}

/// What each kind of chunk is refused with, in the order in which it is judged.
fn order(id: u16) -> &'static [Named] {
    match id {
        0 => &[
            Field(0),
            Field(4),
            Field(16),
            Field(17),
            Field(19),
            Field(21),
            Field(23),
            Field(27),
            Field(36),
            Chunk(11),
        ],
        2 => &[Field(0), Header(6)],
        4 => &[
            Field(256),
            Field(257),
            Field(273),
            Field(294),
            Field(310),
            Field(329),
            Field(371),
            Field(373),
        ],
        6 => &[Field(0), Field(16), Field(32), Field(34)],
        8 => &[Field(256), Field(272), Field(288), Field(290)],
        // The codes stand behind the plane length, and are judged before it.
        _ => &[Header(6), Field(8), Field(10), Header(9), Field(4)],
    }
}

/// Offset, size and value of a field.
type Change = (usize, usize, i64);

/// Fields that are not permitted together. Each that the fault depends on is
/// written, so that no fault in other fields undoes it.
struct Fault {
    named: Named,
    changes: Vec<Change>,
}

impl Fault {
    fn is_apart_from(&self, other: &Fault) -> bool {
        let is_apart = |&(one, ..): &Change| other.changes.iter().all(|&(at, ..)| at != one);
        self.changes.iter().all(is_apart)
    }
}

/// Fields that are wrong by themselves, and all other faults.
fn faults(wrong: &[Change], others: &[(Named, &[Change])]) -> Vec<Fault> {
    let wrong = wrong.iter().map(|&change| Fault {
        named: Field(change.0),
        changes: vec![change],
    });
    let others = others.iter().map(|&(named, changes)| Fault {
        named,
        changes: changes.to_vec(),
    });
    wrong.chain(others).collect()
}

/// A file with faults in one chunk, or with none.
pub struct Spoiled {
    pub id: u16,
    /// What each of the faults is answered with where it is the only one.
    pub faults: Vec<Named>,
    pub input: Vec<u8>,
    /// Number, place and count.
    pub answer: (u32, u64, usize),
}

pub fn all(cases: &mut Vec<Case>) {
    for file in files() {
        if file.faults.len() == 1 {
            cases.push(Case::Count {
                room: ROOM_LIMIT,
                input: file.input.clone(),
            });
        }
        cases.push(listing(file.input));
    }
}

pub fn files() -> Vec<Spoiled> {
    let mut files = Vec::new();
    // Of the last, what the others do not have.
    for (picture, first) in [(colours(), 0), (paletted(), 0), (areas(), 4)] {
        let file = picture.tree().written();
        for before in first..file.headers.len() {
            let block = Block {
                file: &file,
                before,
            };
            block.spoil(&mut files);
        }
    }
    files
}

const IMAGE_BORDER: [i32; 4] = [-10, -20, 30, 40];
const MASK_BORDER: [i32; 4] = [100, 200, 140, 260];
const AREA_BORDER: [i32; 4] = [-5, 7, 35, 80];

/// Two pixels by two, away from every side of the border.
fn saved([left, top, ..]: [i32; 4]) -> [i32; 4] {
    [left + 10, top + 20, left + 12, top + 22]
}

fn of([left, top, right, bottom]: [i32; 4]) -> Rectangle {
    Rectangle::new(left, top, right, bottom)
}

/// A layer with both masks. Nothing compares a stored length with a plane
/// length, so nothing is stored.
fn layer(image: &Image) -> InBank {
    let mut layer = Layer::new(of(saved(IMAGE_BORDER)));
    layer.image_border = of(IMAGE_BORDER);
    layer.mask_border = of(MASK_BORDER);
    layer.mask_saved = of(saved(MASK_BORDER));
    for code in image.colour_codes() {
        layer = layer.with(0, code, Vec::new());
    }
    InBank::Layer(layer.with(1, 0, Vec::new()).with(2, 0, Vec::new()))
}

/// Two layers of five channels.
fn colours() -> Picture {
    let image = Image::new(24, false);
    let layers = vec![layer(&image), layer(&image)];
    Picture::new(image).bank(layers)
}

/// A palette of two entries, and a layer of three channels.
fn paletted() -> Picture {
    let image = Image::new(4, false);
    let layers = vec![layer(&image)];
    Picture::new(image).palette(vec![[0; 4]; 2]).bank(layers)
}

/// Behind image, bank, layer and channel: a selection, and two alpha channels.
fn areas() -> Picture {
    let area = |bitmap| {
        let area = Area::new(of(saved(AREA_BORDER))).within(of(AREA_BORDER));
        area.with(bitmap, Vec::new())
    };
    let alpha = || InAlphaBank::Alpha(Alpha::new("", area(write::ALPHA)));
    samples::grey521()
        .selection(area(write::SELECTION))
        .alphas(vec![alpha(), alpha()])
}

/// A block of a good file, by how many stand before it.
struct Block<'a> {
    file: &'a Written,
    before: usize,
}

impl Block<'_> {
    fn id(&self) -> u16 {
        self.file.headers[self.before].id
    }

    fn place(&self) -> usize {
        self.file.headers[self.before].place
    }

    fn chunk(&self) -> usize {
        self.place() + 14
    }

    /// The file as it is, each fault, and every two that write different fields.
    fn spoil(&self, files: &mut Vec<Spoiled>) {
        files.push(self.with(&[]));
        let faults = self.faults();
        for (at, first) in faults.iter().enumerate() {
            self.cuts(first, files);
            let others = faults[at + 1..].iter();
            let apart = others.filter(|second| first.is_apart_from(second));
            files.extend(apart.map(|second| self.with(&[first, second])));
        }
    }

    /// The whole, the whole with more behind it, and up to the chunk's end: the
    /// same answer. One byte less, and the chunk has not arrived.
    fn cuts(&self, fault: &Fault, files: &mut Vec<Spoiled>) {
        let size = match self.id() {
            0 => 38,
            2 => 4,
            4 => 375,
            6 => 36,
            8 => 292,
            _ => 12,
        };
        let end = self.chunk() + size;
        for length in [self.file.bytes.len(), self.file.bytes.len() + 20, end] {
            let mut file = self.with(&[fault]);
            file.input.resize(length, b'~');
            files.push(file);
        }
        let mut cut = self.with(&[fault]);
        cut.input.truncate(end - 1);
        cut.answer = (2, self.chunk() as u64, self.before);
        files.push(cut);
    }

    fn with(&self, faults: &[&Fault]) -> Spoiled {
        let mut input = self.file.bytes.clone();
        let chunk = &mut input[self.chunk()..];
        for &(offset, size, value) in faults.iter().flat_map(|fault| &fault.changes) {
            fields::set(chunk, offset, size, value as u64);
        }
        let faults: Vec<Named> = faults.iter().map(|fault| fault.named).collect();
        let first = order(self.id()).iter().find(|named| faults.contains(named));
        let (number, place, count) = match first.copied() {
            Some(Field(offset)) => (8, self.chunk() + offset, self.before),
            Some(Chunk(number)) => (number, self.chunk(), self.before),
            Some(Header(number)) => (number, self.place(), self.before),
            None => (0, input.len(), self.file.headers.len()),
        };
        Spoiled {
            id: self.id(),
            faults,
            input,
            answer: (number, place as u64, count),
        }
    }

    fn faults(&self) -> Vec<Fault> {
        match self.id() {
            0 => faults(&IMAGE, &IMAGE_OTHERS),
            2 => faults(&PALETTE, &PALETTE_OTHERS),
            4 => {
                let mut faults = faults(&LAYER, &LAYER_OTHERS);
                for axis in 0..2 {
                    faults.extend(sides(257, IMAGE_BORDER, axis));
                    faults.extend(sides(294, MASK_BORDER, axis));
                }
                faults
            }
            5 => self.channel_faults(),
            6 => area_faults(0),
            8 => area_faults(256),
            _ => Vec::new(),
        }
    }

    /// Besides codes and plane lengths that are wrong by themselves: another
    /// stored length than the total says, and a channel that is not expected, by
    /// its bitmap, by its channel, or because the one before it has its codes.
    fn channel_faults(&self) -> Vec<Fault> {
        let codes = |at: usize| {
            let chunk = self.file.headers[at].place + 14;
            [chunk + 8, chunk + 10].map(|code| i64::from(self.file.bytes[code]))
        };
        let [bitmap, channel] = codes(self.before);
        // A selection's bitmap is 3: elsewhere that is another parent's.
        let foreign = [(8, 2, if bitmap == 3 { 4 } else { 3 })];
        let other = [(10, 2, i64::from(channel == 0))];
        let mut others: Vec<(Named, &[Change])> = vec![
            (Header(6), &[(0, 4, 1)]),
            (Header(9), &foreign),
            (Header(9), &other),
        ];
        let [bitmap, channel] = codes(self.before - 1);
        let again = [(8, 2, bitmap), (10, 2, channel)];
        if self.file.headers[self.before - 1].id == 5 {
            others.push((Header(9), &again));
        }
        faults(&CHANNEL, &others)
    }
}

const IMAGE: [Change; 20] = [
    (0, 4, 0),
    (0, 4, 30_001),
    (0, 4, -1),
    (4, 4, 0),
    (4, 4, 30_001),
    (16, 1, 3),
    (16, 1, 255),
    (17, 2, 3),
    (17, 2, 65_535),
    (19, 2, 0),
    (19, 2, 5),
    (19, 2, 32),
    (21, 2, 0),
    (21, 2, 2),
    (23, 4, 0),
    (23, 4, 255),
    (27, 1, 2),
    (27, 1, 255),
    (36, 2, 0),
    (36, 2, 65),
];

const IMAGE_OTHERS: [(Named, &[Change]); 13] = [
    // A resolution of 0, and one that is no number.
    (Field(16), &[(8, 8, 0), (16, 1, 1)]),
    (Field(16), &[(8, 8, -1), (16, 1, 2)]),
    // Two to the depth, or not.
    (Field(23), &[(19, 2, 4), (23, 4, 256)]),
    (Field(23), &[(19, 2, 24), (23, 4, 256)]),
    (Field(19), &[(19, 2, 5), (23, 4, 32)]),
    // Grey at another depth than 8.
    (Field(27), &[(19, 2, 4), (23, 4, 16), (27, 1, 1)]),
    (Field(27), &[(19, 2, 24), (23, 4, 1 << 24), (27, 1, 1)]),
    (Field(19), &[(19, 2, 16), (27, 1, 1)]),
    // Paletted with more than one layer.
    (Field(36), &[(19, 2, 1), (23, 4, 2), (27, 1, 0), (36, 2, 2)]),
    (
        Field(36),
        &[(19, 2, 4), (23, 4, 16), (27, 1, 0), (36, 2, 64)],
    ),
    (
        Field(27),
        &[(19, 2, 4), (23, 4, 16), (27, 1, 2), (36, 2, 2)],
    ),
    (Field(19), &[(19, 2, 5), (27, 1, 0), (36, 2, 2)]),
    (Chunk(11), &[(17, 2, 2)]),
];

/// At depth 4, with two entries behind the count.
const PALETTE: [Change; 3] = [(0, 4, 0), (0, 4, 17), (0, 4, -1)];

const PALETTE_OTHERS: [(Named, &[Change]); 2] =
    [(Header(6), &[(0, 4, 1)]), (Header(6), &[(0, 4, 16)])];

const LAYER: [Change; 8] = [
    (256, 1, 2),
    (256, 1, 255),
    (329, 2, 6),
    (329, 2, 65_535),
    (371, 2, 0),
    (371, 2, 4),
    (373, 2, 0),
    (373, 2, 9),
];

/// At any depth: with three colours and with one.
const LAYER_OTHERS: [(Named, &[Change]); 6] = [
    // Channels as many as the bitmaps would give, which are none or too many.
    (Field(371), &[(371, 2, 0), (373, 2, 2)]),
    (Field(371), &[(371, 2, 4), (373, 2, 6)]),
    (Field(371), &[(371, 2, 4), (373, 2, 4)]),
    // As many as other bitmaps would give.
    (Field(373), &[(371, 2, 1), (373, 2, 5)]),
    (Field(373), &[(371, 2, 2), (373, 2, 5)]),
    (Field(373), &[(371, 2, 3), (373, 2, 4)]),
];

const CHANNEL: [Change; 7] = [
    (4, 4, 0),
    (4, 4, 3),
    (4, 4, -1),
    (8, 2, 6),
    (8, 2, 65_535),
    (10, 2, 4),
    (10, 2, 65_535),
];

/// The faults of a selection's fields at an offset: both counts are 1, and
/// nothing else.
fn area_faults(at: usize) -> Vec<Fault> {
    let counts = [at + 32, at + 34].map(|count| [0, 2, 65_535].map(|value| (count, 2, value)));
    let mut faults = faults(&counts.concat(), &[]);
    for axis in 0..2 {
        faults.extend(sides(at, AREA_BORDER, axis));
    }
    faults
}

/// The faults of a border at an offset and of the saved rectangle behind it, on
/// the axis of the left and right side (0) or of the upper and lower one (1).
fn sides(at: usize, border: [i32; 4], axis: usize) -> Vec<Fault> {
    let ends = |corners: [i32; 4]| [corners[axis], corners[axis + 2]].map(i64::from);
    let [low, high] = ends(border);
    let [from, to] = ends(saved(border));
    let first = at + 4 * axis;
    let border_low = |value| (first, 4, value);
    let border_high = |value| (first + 8, 4, value);
    let saved_low = |value| (first + 16, 4, value);
    let saved_high = |value| (first + 24, 4, value);
    let (border, saved) = (Field(at), Field(at + 16));
    faults(
        &[],
        &[
            // Out of order, by either side; out of range.
            (border, &[border_low(high + 1), border_high(high)]),
            (border, &[border_low(low), border_high(low - 1)]),
            (border, &[border_low(-32_769)]),
            (border, &[border_high(32_768)]),
            (saved, &[saved_low(to + 1), saved_high(to)]),
            (saved, &[saved_low(from), saved_high(from - 1)]),
            (saved, &[saved_low(-32_769)]),
            (saved, &[saved_high(32_768)]),
            // Past its border, which is where it was, or has been moved.
            (saved, &[border_low(low), saved_low(low - 1)]),
            (saved, &[border_high(high), saved_high(high + 1)]),
            (saved, &[border_low(from + 1), saved_low(from)]),
            (saved, &[border_high(to - 1), saved_high(to)]),
            // Too long, inside its border.
            (
                saved,
                &[
                    border_high(from + 30_001),
                    saved_low(from),
                    saved_high(from + 30_001),
                ],
            ),
        ],
    )
}
