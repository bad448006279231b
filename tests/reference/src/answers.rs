//! The answer line of a case: its kind, the answer's numbers, and a hash of
//! every buffer that the call could write, what must stay untouched included.

use crate::case::Case;
use crate::library::{Library, Listed, Record};
use crate::psp::chunks::{AlphaChunk, ImageChunk, LayerChunk, Resolution, SelectionChunk};
use crate::psp::listing::ENTRY_NUMBERS;
use crate::psp::pencil::Asked;
use crate::psp::planes::PlaneAnswer;
use crate::psp::rectangle::Rectangle;
use crate::psp::views::Lender;

/// What buffers hold before a call.
const BEFORE: u8 = 0xEE;
const NUMBER_BEFORE: u32 = u32::from_le_bytes([BEFORE; 4]);

/// A line without its line feed, and the answer number in it, if its kind
/// has one.
pub struct Answer {
    pub line: String,
    pub number: Option<u32>,
}

/// FNV-1a, 32 bits.
pub fn fnv(bytes: &[u8]) -> u32 {
    bytes.iter().fold(2_166_136_261, |hash: u32, &byte| {
        (hash ^ u32::from(byte)).wrapping_mul(16_777_619)
    })
}

fn hash(numbers: &[u32]) -> u32 {
    let bytes = numbers.iter().flat_map(|number| number.to_le_bytes());
    fnv(&bytes.collect::<Vec<u8>>())
}

/// A library's answer to a case.
pub fn answer(library: &dyn Library, case: &Case) -> Answer {
    match case {
        Case::Listing { room, input } => listing(library, *room as usize, input),
        Case::Count { room, input } => count(library, *room as usize, input),
        Case::PaletteView { room, ramp, input } => {
            palette(library, *room as usize, *ramp as usize, input)
        }
        Case::ImageFacts { room, input } => {
            let (number, image) = library.image_facts(input, *room as usize);
            numbered(number, image_line(number, &image))
        }
        Case::LayerFacts { room, k, input } => {
            let (number, layer) = library.layer_facts(input, *room as usize, *k);
            numbered(number, layer_line(number, &layer))
        }
        Case::LayerName { room, k, input } => {
            name('N', library.layer_name(input, *room as usize, *k), input)
        }
        _ => answer_of_selections(library, case),
    }
}

/// The kinds that read selections and alpha channels.
fn answer_of_selections(library: &dyn Library, case: &Case) -> Answer {
    match case {
        Case::SelectionFacts { room, input } => {
            let (number, selection) = library.selection_facts(input, *room as usize);
            numbered(number, area_line('S', number, &selection))
        }
        Case::AlphaFacts { room, k, input } => {
            let (number, alpha) = library.alpha_facts(input, *room as usize, *k);
            numbered(number, alpha_line(number, &alpha))
        }
        Case::AlphaName { room, k, input } => {
            name('M', library.alpha_name(input, *room as usize, *k), input)
        }
        Case::Place { place, input } => standing(library, *place, input),
        _ => answer_without_file(library, case),
    }
}

/// The kinds whose input is no whole file.
fn answer_without_file(library: &dyn Library, case: &Case) -> Answer {
    match case {
        Case::Plane {
            stored,
            destination,
            input,
        } => {
            let mut buffer = vec![BEFORE; *destination as usize];
            let got = library.read_plane(input, stored, &mut buffer);
            plane('P', got, &buffer)
        }
        Case::Packets {
            plane: length,
            destination,
            stream,
        } => {
            let mut buffer = vec![BEFORE; *destination as usize];
            let got = library.unpack(stream, *length, &mut buffer);
            plane('U', got, &buffer)
        }
        Case::Pack { destination, plane } => {
            let mut buffer = vec![BEFORE; *destination as usize];
            let (number, length) = library.pack(plane, &mut buffer);
            numbered(number, format!("K {} {} {}", number, length, fnv(&buffer)))
        }
        Case::Canvas {
            placing,
            canvas,
            plane,
        } => {
            let mut pixels = canvas.clone();
            let number = library.place(placing, &mut pixels, plane);
            numbered(number, format!("C {} {}", number, fnv(&pixels)))
        }
        _ => answer_of_saved(library, case),
    }
}

/// The kinds that write a table as a file and read it back.
fn answer_of_saved(library: &dyn Library, case: &Case) -> Answer {
    match case {
        Case::WriteTable {
            destination,
            numbers,
        } => written(library, &table_of(numbers), *destination as usize),
        Case::ReadTable { numbers, file } => {
            let mut table = vec![NUMBER_BEFORE; *numbers as usize];
            let (number, count) = library.read_table(file, &mut table);
            numbered(number, format!("R {} {} {}", number, count, hash(&table)))
        }
        _ => answer_of_values(library, case),
    }
}

/// The numbers of a table in a case, little-endian there.
fn table_of(numbers: &[u8]) -> Vec<u32> {
    let number = |bytes: &[u8]| u32::from_le_bytes([bytes[0], bytes[1], bytes[2], bytes[3]]);
    numbers.chunks_exact(4).map(number).collect()
}

/// The kinds without a buffer; they refuse nothing.
fn answer_of_values(library: &dyn Library, case: &Case) -> Answer {
    let line = match case {
        Case::Intersection { one, other } => {
            let [left, top, right, bottom] = library.intersect(*one, *other).corners();
            format!("I {} {} {} {}", left, top, right, bottom)
        }
        Case::Dots { bits, metric } => {
            let value = f64::from_bits(*bits);
            let metric = *metric;
            match library.dots(Resolution { value, metric }) {
                Some(dots) => format!("D 1 {}", dots.to_bits()),
                None => "D 0 0".to_string(),
            }
        }
        _ => String::new(),
    };
    Answer { line, number: None }
}

fn numbered(number: u32, line: String) -> Answer {
    Answer {
        line,
        number: Some(number),
    }
}

fn listed(kind: char, listed: Listed, hashes: &[u32]) -> Answer {
    let (number, place, count) = listed;
    let mut line = format!("{} {} {} {}", kind, number, place, count);
    for hash in hashes {
        line.push_str(&format!(" {}", hash));
    }
    numbered(number, line)
}

/// The table has some numbers past the room, too few for one entry more, and
/// ends anywhere in it. Behind its hash stands that of the entries asked for.
fn listing(library: &dyn Library, room: usize, input: &[u8]) -> Answer {
    let rest = input.len() % ENTRY_NUMBERS;
    let mut table = vec![NUMBER_BEFORE; room * ENTRY_NUMBERS + rest];
    let got = library.list(input, &mut table);
    let replies = replies(library, room, got.2 as usize, input);
    listed('L', got, &[hash(&table), hash(&replies)])
}

/// Every entry that is listed and two past the last, asked for one by one: in the
/// listing's own room, in one that is full before it, and in one that it fills.
fn replies(library: &dyn Library, room: usize, count: usize, input: &[u8]) -> Vec<u32> {
    let rooms = |k| [room, k, k + 1].map(|room| (room, k));
    let asked = (0..=count + 1).flat_map(rooms);
    let reply = |(room, k)| reply(library.entry_at(input, room, k));
    asked.flat_map(reply).collect()
}

/// 1 and the entry's numbers, or 0 and the final answer's. An input's places and
/// its entries are few enough for 32 bits.
fn reply(asked: Asked) -> Vec<u32> {
    match asked {
        Asked::Found(entry) => [&[1][..], &entry.numbers()].concat(),
        Asked::Final {
            number,
            place,
            count,
        } => vec![0, number, place as u32, count as u32],
    }
}

/// One entry asked for. No case does that: tests/linked does, of very many blocks.
pub fn asked(library: &dyn Library, room: usize, k: usize, input: &[u8]) -> Answer {
    let asked = library.entry_at(input, room, k);
    let number = match asked {
        Asked::Found(_) => None,
        Asked::Final { number, .. } => Some(number),
    };
    let numbers = reply(asked).into_iter();
    let words: String = numbers.map(|number| format!(" {}", number)).collect();
    let line = format!("Q{}", words);
    Answer { line, number }
}

/// A listing in a table of so many numbers and in so many records. No case
/// asks for one: tests/linked does, beside each listing.
pub fn records(library: &dyn Library, numbers: usize, room: usize, input: &[u8]) -> Answer {
    let mut table = vec![NUMBER_BEFORE; numbers];
    let mut records: Vec<Record> = vec![[NUMBER_BEFORE; ENTRY_NUMBERS]; room];
    let got = library.list_records(input, &mut table, &mut records);
    let records: Vec<u32> = records.into_iter().flatten().collect();
    listed('E', got, &[hash(&table), hash(&records)])
}

/// A table written as a file. tests/linked has longer ones than a case can hold.
pub fn written(library: &dyn Library, table: &[u32], destination: usize) -> Answer {
    let mut buffer = vec![BEFORE; destination];
    let (number, length) = library.write_table(table, &mut buffer);
    numbered(number, format!("W {} {} {}", number, length, fnv(&buffer)))
}

/// A listing that stores nothing.
pub fn count(library: &dyn Library, room: usize, input: &[u8]) -> Answer {
    listed('T', library.count(input, room), &[])
}

/// The part in numbers; then the number that comes with the part itself, and a
/// hash of the part.
fn palette(library: &dyn Library, room: usize, ramp: usize, input: &[u8]) -> Answer {
    let ramp = vec![BEFORE; ramp];
    let view = library.palette(input, room, &ramp);
    let (which, lent) = match view.lender {
        Lender::Input => (0, input),
        Lender::Ramp => (1, &ramp[..]),
    };
    let line = format!(
        "V {} {} {} {}{}",
        view.number,
        which,
        view.start,
        view.length,
        shown(view.number, lent, view.start, view.length)
    );
    numbered(view.number, line)
}

/// A part of the input, which is a name: number, start and length.
fn name(kind: char, (number, start, length): (u32, u64, u64), input: &[u8]) -> Answer {
    let shown = shown(number, input, start, length);
    let line = format!("{} {} {} {}{}", kind, number, start, length, shown);
    numbered(number, line)
}

/// All that is read at a place, each behind the letter of its view; 0 if anything
/// stands there.
fn standing(library: &dyn Library, place: u64, input: &[u8]) -> Answer {
    let (layer, chunk) = library.layer_at(input, place);
    let (selection, area) = library.selection_at(input, place);
    let (alpha, named) = library.alpha_at(input, place);
    let part = |kind, (number, start, length): (u32, u64, u64)| {
        format!("{} {} {} {}", kind, number, start, length)
    };
    let lines = [
        layer_line(layer, &chunk),
        part('N', library.name_at(input, place)),
        area_line('S', selection, &area),
        alpha_line(alpha, &named),
        part('M', library.alpha_name_at(input, place)),
    ];
    let number = layer.min(selection).min(alpha);
    numbered(number, format!("H {}", lines.join(" ")))
}

fn shown(number: u32, lent: &[u8], start: u64, length: u64) -> String {
    let part = &lent[start as usize..][..length as usize];
    format!(" {} {}", number, fnv(part))
}

fn plane(kind: char, got: PlaneAnswer, buffer: &[u8]) -> Answer {
    let hash = fnv(buffer);
    let line = format!(
        "{} {} {} {} {}",
        kind, got.number, got.place, got.bytes, hash
    );
    numbered(got.number, line)
}

fn image_line(number: u32, image: &ImageChunk) -> String {
    format!(
        "F {} {} {} {} {} {} {} {} {} {} {} {} {}",
        number,
        image.width,
        image.height,
        image.resolution.value.to_bits(),
        image.resolution.metric,
        image.compression,
        image.depth,
        image.planes,
        image.colours,
        image.grey,
        image.total_size,
        image.active_layer,
        image.layer_count,
    )
}

fn layer_line(number: u32, layer: &LayerChunk) -> String {
    let mut line = format!(
        "Y {} {} {} {} {} {} {} {} {} {} {} {} {}",
        number,
        layer.kind,
        layer.opacity,
        layer.blending,
        u8::from(layer.visible),
        u8::from(layer.protected),
        layer.group,
        u8::from(layer.linked),
        u8::from(layer.disabled),
        u8::from(layer.inverted),
        layer.blend_count,
        layer.bitmaps,
        layer.channels,
    );
    let rectangles = [
        layer.image_border,
        layer.image_saved,
        layer.mask_border,
        layer.mask_saved,
    ];
    line.push_str(&corners(&rectangles));
    let (name, ranges) = (fnv(&layer.name), fnv(&layer.blend_ranges));
    line.push_str(&format!(" {} {}", name, ranges));
    line
}

fn corners(rectangles: &[Rectangle]) -> String {
    let corners = rectangles.iter().flat_map(|rectangle| rectangle.corners());
    corners.map(|corner| format!(" {}", corner)).collect()
}

fn area_line(kind: char, number: u32, area: &SelectionChunk) -> String {
    let corners = corners(&[area.border, area.saved]);
    let counts = format!("{} {}", area.bitmaps, area.channels);
    format!("{} {} {}{}", kind, number, counts, corners)
}

fn alpha_line(number: u32, alpha: &AlphaChunk) -> String {
    let area = area_line('A', number, &alpha.area);
    format!("{} {}", area, fnv(&alpha.name))
}
