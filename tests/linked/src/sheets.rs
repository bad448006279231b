//! Sheets as large as they may be, and larger by one: inputs of a gigabyte, planes
//! of 30,000 by 30,000 pixels, packed, read and placed on canvases of that size,
//! sides, and their tables, saved and read back. One at a time, and answers are
//! compared where they stand: each buffer is nearly a gigabyte.

use std::fs;
use std::time::Instant;

use reference::answers::{answer, count, records, Answer};
use reference::case::{Case, Placing, Stored};
use reference::cases::alphas;
use reference::library::{Library, Reference};
use reference::opened::channel_entries;
use reference::psp::listing::ENTRY_NUMBERS;
use reference::psp::planes::{packed_form, PlaneAnswer};
use reference::psp::rectangle::Rectangle;
use reference::psp::{INPUT_LIMIT, PLANE_LIMIT, SIDE_LIMIT};
use reference::random::Random;
use reference::samples;
use reference::write::{Form, Image, InBank, Layer, Node, Picture};

use crate::linked::Linked;

const SIDE: i32 = SIDE_LIMIT as i32;
const PLANE: usize = PLANE_LIMIT as usize;
const INPUT: usize = INPUT_LIMIT as usize;

/// What buffers hold before a call.
const BEFORE: u8 = 0xEE;
const NUMBER_BEFORE: u32 = 0xEEEE_EEEE;

/// Bytes past what a call writes.
const REST: usize = 9;

/// Entries that are enough for each of these files.
const ROOM: u32 = 64;

/// A number, and what else a call tells.
type Told = (u32, u64, u64);

/// What has been compared so far.
struct Sheets {
    began: Instant,
    cases: u64,
    differences: u64,
}

/// True if nothing differed.
pub fn run() -> bool {
    let mut sheets = Sheets {
        began: Instant::now(),
        cases: 0,
        differences: 0,
    };
    inputs(&mut sheets);
    sheets.print("inputs");
    sides(&mut sheets);
    sheets.print("sides and their tables");
    for (name, plane) in [("flat", flat as fn() -> Vec<u8>), ("mixed", mixed)] {
        planes(&mut sheets, &plane());
        sheets.print(&format!("a {} plane", name));
    }
    refused_canvases(&mut sheets);
    canvases(&mut sheets, &mixed());
    sheets.print("canvases");
    sheets.print(&format!("peak memory {} MiB", peak_mebibytes()));
    sheets.differences == 0
}

impl Sheets {
    /// A case whose answer is the reference's, and has the number that it was
    /// made for; or not.
    fn hold(&mut self, name: &str, same: bool) {
        self.cases += 1;
        if !same {
            self.differences += 1;
            println!("{} differs", name);
        }
    }

    /// Two answers in lines: the library's and the reference's.
    fn lines(&mut self, number: u32, [got, expected]: [Answer; 2]) {
        let same = expected.number == Some(number) && got.line == expected.line;
        self.hold(&expected.line, same);
    }

    /// The same call of both, each with a buffer of its own.
    fn both(
        &mut self,
        name: &str,
        number: u32,
        size: usize,
        call: impl Fn(&dyn Library, &mut [u8]) -> Told,
    ) {
        let mut got = vec![BEFORE; size];
        let told = call(&Linked, &mut got);
        let mut expected = vec![BEFORE; size];
        let right = call(&Reference, &mut expected);
        let same = right.0 == number && told == right && got == expected;
        self.hold(&format!("{}: {:?}, expected {:?}", name, told, right), same);
    }

    /// All so far, behind a part or at the end.
    fn print(&self, part: &str) {
        println!(
            "{}: {} cases, {} differences, {} s",
            part,
            self.cases,
            self.differences,
            self.began.elapsed().as_secs()
        );
    }
}

/// Of both libraries, the one under test first.
fn of_both(answer: impl Fn(&dyn Library) -> Answer) -> [Answer; 2] {
    [answer(&Linked), answer(&Reference)]
}

/// The most memory that the process has had.
fn peak_mebibytes() -> usize {
    let text = fs::read_to_string("/proc/self/status").unwrap_or_default();
    let figure = text.lines().find_map(|line| line.strip_prefix("VmHWM:"));
    let kibibytes = figure.and_then(|rest| rest.split_whitespace().next()?.parse::<usize>().ok());
    kibibytes.unwrap_or(0) / 1_024
}

/// Every kind that lists an input.
const LISTINGS: [fn(Vec<u8>) -> Case; 9] = [
    |input| Case::Listing { room: ROOM, input },
    |input| Case::Count { room: ROOM, input },
    |input| Case::PaletteView {
        room: ROOM,
        ramp: 1_024,
        input,
    },
    |input| Case::ImageFacts { room: ROOM, input },
    |input| Case::SelectionFacts { room: ROOM, input },
    |input| Case::LayerFacts {
        room: ROOM,
        k: 1,
        input,
    },
    |input| Case::LayerName {
        room: ROOM,
        k: 1,
        input,
    },
    |input| Case::AlphaFacts {
        room: ROOM,
        k: 1,
        input,
    },
    |input| Case::AlphaName {
        room: ROOM,
        k: 1,
        input,
    },
];

/// The input of such a case, for the next one.
fn input_of(case: Case) -> Vec<u8> {
    match case {
        Case::Listing { input, .. }
        | Case::Count { input, .. }
        | Case::PaletteView { input, .. }
        | Case::ImageFacts { input, .. }
        | Case::SelectionFacts { input, .. }
        | Case::LayerFacts { input, .. }
        | Case::LayerName { input, .. }
        | Case::AlphaFacts { input, .. }
        | Case::AlphaName { input, .. } => input,
        _ => Vec::new(),
    }
}

/// Accepted files of the limit's length and one less, and one of one more, with
/// two layers, a selection and two alpha channels: the last block, which is
/// skipped, fills them. And nothing but zeros.
fn inputs(sheets: &mut Sheets) {
    for (length, number, of_zeros) in [(INPUT - 1, 0, 3), (INPUT, 0, 3), (INPUT + 1, 1, 1)] {
        let mut input = filled(length);
        for listing in LISTINGS {
            let case = listing(input);
            // A picture at depth 24 has no palette to show.
            let number = match case {
                Case::PaletteView { .. } if number == 0 => 43,
                _ => number,
            };
            sheets.lines(number, of_both(|library| answer(library, &case)));
            input = input_of(case);
        }
        listed_otherwise(sheets, number, &input);
        drop(input);
        let zeros = Case::Listing {
            room: ROOM,
            input: vec![0; length],
        };
        sheets.lines(of_zeros, of_both(|library| answer(library, &zeros)));
    }
}

fn filled(length: usize) -> Vec<u8> {
    let mut tree = samples::skips().tree();
    tree.blocks
        .extend(samples::alphas().tree().blocks.drain(2..));
    let mut last = Node::new(12, 0, Vec::new());
    last.total = Some((length - tree.bytes().len() - 14) as u32);
    tree.blocks.push(last);
    let mut input = tree.bytes();
    input.resize(length, 1);
    input
}

/// Into records beside the table, with the smaller room on either side, and
/// counted.
fn listed_otherwise(sheets: &mut Sheets, number: u32, input: &[u8]) {
    let enough = ROOM as usize * ENTRY_NUMBERS + 5;
    for (numbers, slots) in [(enough, 66), (enough + 28, 64)] {
        let listed = of_both(|library| records(library, numbers, slots, input));
        sheets.lines(number, listed);
    }
    let full = if number == 0 { 12 } else { number };
    let listed = of_both(|library| records(library, enough, 3, input));
    sheets.lines(full, listed);
    let counted = of_both(|library| count(library, usize::MAX, input));
    sheets.lines(number, counted);
}

/// Every side at its limit and one over.
fn sides(sheets: &mut Sheets) {
    for side in [SIDE, SIDE + 1] {
        for (place, picture) in with_side(side) {
            listed(sheets, &picture, side, place);
        }
    }
}

/// Pictures with a side of the image, or of a saved rectangle, and its place.
fn with_side(side: i32) -> Vec<(u64, Picture)> {
    let mut wide = samples::grey521();
    wide.image.width = side as u32;
    let mut high = samples::grey521();
    high.image.height = side as u32;
    let mut pictures = vec![(50, wide), (54, high)];
    for (right, bottom) in [(side, 1), (1, side), (side, side)] {
        pictures.extend(with_saved(Rectangle::new(0, 0, right, bottom)));
    }
    pictures
}

/// A rectangle as that of a layer's image and mask, of a selection and of an alpha
/// channel, each with the border that it fills.
fn with_saved(saved: Rectangle) -> [(u64, Picture); 4] {
    let [mut image, mut mask] = [samples::grey521(), samples::grey521()];
    for layer in image.layers_mut() {
        layer.image_border = saved;
        layer.image_saved = saved;
    }
    for layer in mask.layers_mut() {
        layer.mask_border = saved;
        layer.mask_saved = saved;
    }
    let area = |at: usize| {
        let mut picture = alphas::small();
        picture.areas_mut()[at].border = saved;
        picture.areas_mut()[at].saved = saved;
        picture
    };
    [(389, image), (426, mask), (551, area(0)), (903, area(1))]
}

/// A picture that is accepted, or refused for the side at a place.
fn listed(sheets: &mut Sheets, picture: &Picture, side: i32, place: u64) {
    let input = picture.bytes();
    let [got, expected] = [&Linked as &dyn Library, &Reference].map(|library| {
        let mut table = vec![NUMBER_BEFORE; 9 * ENTRY_NUMBERS];
        (library.list(&input, &mut table), table)
    });
    let (number, at, entries) = expected.0;
    let told = if side > SIDE {
        (8, place)
    } else {
        (0, input.len() as u64)
    };
    let name = format!("a side of {} at {}", side, place);
    sheets.hold(&name, got == expected && (number, at) == told);
    let numbers = entries as usize * ENTRY_NUMBERS;
    there_and_back(sheets, &expected.1[..numbers]);
}

/// A table saved, and its file read, with what is needed and with one too few.
fn there_and_back(sheets: &mut Sheets, table: &[u32]) {
    let length = 9 + 4 * table.len();
    for (number, size) in [(0, length), (73, length - 1)] {
        sheets.both("saving", number, size, |library, destination| {
            let (number, length) = library.write_table(table, destination);
            (number, length, 0)
        });
    }
    let mut file = vec![BEFORE; length];
    Linked.write_table(table, &mut file);
    let mut back = vec![NUMBER_BEFORE; table.len()];
    let told = Linked.read_table(&file, &mut back);
    let entries = (table.len() / ENTRY_NUMBERS) as u64;
    sheets.hold("reading back", told == (0, entries) && back == table);
    for version in 0..=3 {
        file[4] = version;
        let [got, expected] = [&Linked as &dyn Library, &Reference].map(|library| {
            let mut back = vec![NUMBER_BEFORE; table.len()];
            (library.read_table(&file, &mut back), back)
        });
        sheets.hold("reading a version", got == expected);
    }
}

/// A plane and one byte more: packed, and read from a file as it is and packed.
fn planes(sheets: &mut Sheets, longer: &[u8]) {
    let plane = &longer[..PLANE];
    let packed = packed_form(plane);
    let length = packed.len();
    for (number, size) in [(0, length), (0, length + REST), (30, length - 1)] {
        packing(sheets, number, size, plane);
    }
    for size in [0, PLANE + 1 + REST] {
        packing(sheets, 31, size, longer);
    }
    reading(sheets, 0, plane, plane);
    reading(sheets, 1, &packed, plane);
}

fn packing(sheets: &mut Sheets, number: u32, size: usize, plane: &[u8]) {
    sheets.both("packing", number, size, |library, destination| {
        let (number, length) = library.pack(plane, destination);
        (number, length, 0)
    });
}

/// A grey sheet of one layer. Its content ends the file, so it is put behind the
/// blocks, whose lengths count it.
fn sheet(content: &[u8], code: u32) -> Vec<u8> {
    let mut image = Image::new(8, true);
    image.width = SIDE as u32;
    image.height = SIDE as u32;
    image.compression = code as u16;
    let layer = Layer::new(Rectangle::new(0, 0, SIDE, SIDE)).with(0, 0, Vec::new());
    let mut tree = Picture::new(image).bank(vec![InBank::Layer(layer)]).tree();
    let length = content.len() as u32;
    for path in [&[1][..], &[1, 0], &[1, 0, 0]] {
        if let Some(node) = tree.node(path) {
            node.total = Some(node.true_total() + length);
        }
    }
    if let Some(channel) = tree.node(&[1, 0, 0]) {
        channel.data[..4].copy_from_slice(&length.to_le_bytes());
    }
    let mut file = tree.bytes();
    file.extend_from_slice(content);
    file
}

/// The plane of a sheet, listed and read there: in a destination that is exact,
/// longer and one byte short, with a byte of the content missing, and as a plane
/// of one byte more than the limit.
fn reading(sheets: &mut Sheets, code: u32, content: &[u8], plane: &[u8]) {
    let file = sheet(content, code);
    let counted = of_both(|library| count(library, 4, &file));
    sheets.lines(0, counted);
    let stored = match channel_entries(&file, 4).first() {
        Some(channel) => Stored::of(channel, code),
        None => return sheets.hold("no channel", false),
    };
    let mut cut = stored;
    cut.length -= 1;
    let mut over = stored;
    over.plane += 1;
    let missing = if code == 0 { 25 } else { 22 };
    for (number, size, stored) in [
        (0, PLANE, stored),
        (0, PLANE + REST, stored),
        (20, PLANE - 1, stored),
        (missing, PLANE, cut),
        (26, PLANE + 1, over),
    ] {
        sheets.both("reading", number, size, |library, destination| {
            told(library.read_plane(&file, &stored, destination))
        });
    }
    let mut back = vec![BEFORE; PLANE];
    Linked.read_plane(&file, &stored, &mut back);
    sheets.hold("reading back", back == plane);
}

fn told(answer: PlaneAnswer) -> Told {
    (answer.number, answer.place, answer.bytes)
}

/// Sides and lengths that are wrong by one, of the canvas and of the rectangle.
fn refused_canvases(sheets: &mut Sheets) {
    let (side, plane) = (SIDE as u32, [7; 4]);
    let one = Rectangle::new(0, 0, 1, 1);
    let wide = Rectangle::new(-1, 0, SIDE, 0);
    let high = Rectangle::new(0, -1, 0, SIDE);
    for (number, width, height, rectangle, less) in [
        (40, side + 1, side, one, 0),
        (40, side, side + 1, one, 0),
        (40, side, side, one, 1),
        (41, side, side, wide, 0),
        (41, side, side, high, 0),
        (0, side, side, one, 0),
    ] {
        let placing = Placing {
            width,
            height,
            rectangle,
            row: 4,
        };
        let size = width as usize * height as usize - less;
        sheets.both("placing little", number, size, |library, canvas| {
            (library.place(&placing, canvas, &plane), 0, 0)
        });
    }
}

/// Rectangles as large as can be, on canvases of that size: over all of it, and
/// hanging over on each side and at two corners, with rows of both forms.
fn canvases(sheets: &mut Sheets, plane: &[u8]) {
    placed(sheets, plane, SIDE, [0, 0], Form::Padded, SIDE);
    placed(sheets, plane, SIDE, [-7, -9], Form::Padded, SIDE);
    placed(sheets, plane, SIDE, [2_767, 2_767], Form::Padded, SIDE);
    let corners = [[-1, 0], [0, -20_000], [17, 0], [0, 2_767]];
    for form in Form::BOTH {
        for corner in corners {
            placed(sheets, plane, SIDE - 1, corner, form, SIDE);
        }
        placed(sheets, plane, SIDE - 1, [0, 0], form, SIDE - 1);
    }
}

/// As many rows of the plane as the canvas has, so many pixels wide.
fn placed(
    sheets: &mut Sheets,
    plane: &[u8],
    wide: i32,
    [left, top]: [i32; 2],
    form: Form,
    side: i32,
) {
    let row = form.row(wide as u64, 8) as usize;
    let plane = &plane[..row * side as usize];
    let placing = Placing {
        width: side as u32,
        height: side as u32,
        rectangle: Rectangle::new(left, top, left + wide, top + side),
        row: row as u32,
    };
    let name = format!("placing {} wide at {}, {}", wide, left, top);
    let size = side as usize * side as usize;
    sheets.both(&name, 0, size, |library, canvas| {
        (library.place(&placing, canvas, plane), 0, 0)
    });
}

fn flat() -> Vec<u8> {
    vec![200; PLANE + 1]
}

/// Runs and literals of every length up to 300.
fn mixed() -> Vec<u8> {
    let mut random = Random::new(5);
    let mut plane = Vec::with_capacity(PLANE + 1 + 600);
    while plane.len() <= PLANE {
        let run = plane.len() + 1 + random.index(300);
        plane.resize(run, random.byte());
        let literals = 1 + random.index(300);
        plane.extend(random.bytes(literals));
    }
    plane.truncate(PLANE + 1);
    plane
}
