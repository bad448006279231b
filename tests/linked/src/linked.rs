//! The library under test, through its C boundary: every answer is turned into
//! the reference's form field by field, refusals as they come.

use psp::{ffi, numbers};
use reference::case::{Placing, Stored};
use reference::library::{Library, Listed, Record};
use reference::psp::chunks::{AlphaChunk, ImageChunk, LayerChunk, Resolution, SelectionChunk};
use reference::psp::listing::Entry;
use reference::psp::pencil::Asked;
use reference::psp::planes::PlaneAnswer;
use reference::psp::rectangle::Rectangle;
use reference::psp::views::{Lender, PaletteView};

pub struct Linked;

fn listed(answer: numbers::Listed) -> Listed {
    (answer.number, answer.place as u64, answer.count as u64)
}

fn plane_answer(answer: numbers::Plane) -> PlaneAnswer {
    PlaneAnswer {
        number: answer.number,
        place: answer.place as u64,
        bytes: answer.bytes as u64,
    }
}

fn to_rect(rectangle: Rectangle) -> numbers::Rect {
    let [left, top, right, bottom] = rectangle.corners();
    numbers::Rect {
        left,
        top,
        right,
        bottom,
    }
}

fn to_rectangle(rect: numbers::Rect) -> Rectangle {
    Rectangle {
        left: rect.left,
        top: rect.top,
        right: rect.right,
        bottom: rect.bottom,
    }
}

fn to_entry(record: &Record) -> numbers::Entry {
    let [id, skipped, level, place, owned, layer, bitmap, channel, start, stored, width, height, plane, row] =
        *record;
    numbers::Entry {
        id,
        skipped,
        level,
        place,
        owned,
        layer,
        bitmap,
        channel,
        start,
        stored,
        width,
        height,
        plane,
        row,
    }
}

fn entry(listed: &numbers::Entry) -> Entry {
    Entry {
        id: listed.id,
        skipped: listed.skipped,
        level: listed.level,
        header_place: listed.place,
        bytes_owned: listed.owned,
        layer_number: listed.layer,
        bitmap: listed.bitmap,
        channel: listed.channel,
        content_start: listed.start,
        stored_length: listed.stored,
        width: listed.width,
        height: listed.height,
        plane_length: listed.plane,
        row: listed.row,
    }
}

/// The bits have to be the value's. A NaN may lose its pattern on the way as a
/// double, and the bits are there for it.
fn resolution(image: &ffi::ImageChunk) -> Resolution {
    let (value, metric) = (image.resolution.value, image.resolution.metric);
    let bits = f64::from_bits(image.bits);
    let same = value.to_bits() == image.bits || (value.is_nan() && bits.is_nan());
    assert!(same, "the resolution {} has the bits of {}", value, bits);
    Resolution {
        value: bits,
        metric,
    }
}

/// A flag is 0 or 1, and nothing else.
fn flag(byte: u8) -> bool {
    assert!(byte <= 1, "a flag is {}", byte);
    byte == 1
}

fn image_chunk(image: &ffi::ImageChunk) -> ImageChunk {
    ImageChunk {
        width: image.width,
        height: image.height,
        resolution: resolution(image),
        compression: image.compression,
        depth: image.depth,
        planes: image.planes,
        colours: image.colours,
        grey: image.grey,
        total_size: image.total,
        active_layer: image.active,
        layer_count: image.layers,
    }
}

fn layer_chunk(layer: &ffi::LayerChunk) -> LayerChunk {
    LayerChunk {
        name: layer.name,
        kind: layer.kind,
        image_border: to_rectangle(layer.image.border),
        image_saved: to_rectangle(layer.image.saved),
        opacity: layer.opacity,
        blending: layer.blending,
        visible: flag(layer.visible),
        protected: flag(layer.transparency_protected),
        group: layer.group,
        mask_border: to_rectangle(layer.mask.border),
        mask_saved: to_rectangle(layer.mask.saved),
        linked: flag(layer.linked),
        disabled: flag(layer.disabled),
        inverted: flag(layer.inverted),
        blend_count: layer.blends,
        blend_ranges: layer.ranges,
        bitmaps: layer.bitmaps,
        channels: layer.channels,
    }
}

fn selection_chunk(area: &ffi::Area, bitmaps: u16, channels: u16) -> SelectionChunk {
    SelectionChunk {
        border: to_rectangle(area.border),
        saved: to_rectangle(area.saved),
        bitmaps,
        channels,
    }
}

fn selection(facts: numbers::SelectionFacts) -> (u32, SelectionChunk) {
    let ffi::SelectionChunk {
        area,
        bitmaps,
        channels,
    } = facts.selection;
    (facts.number, selection_chunk(&area, bitmaps, channels))
}

fn alpha(facts: numbers::AlphaFacts) -> (u32, AlphaChunk) {
    let ffi::AlphaChunk {
        name,
        area,
        bitmaps,
        channels,
    } = facts.alpha;
    let area = selection_chunk(&area, bitmaps, channels);
    (facts.number, AlphaChunk { name, area })
}

/// The numbers of a part, which a slice would not show; the slice has to be what
/// they say.
fn name(part: ffi::Part, shown: &[u8], input: &[u8]) -> (u32, u64, u64) {
    assert_eq!(part.which, 0, "a name is a part of the input");
    assert_eq!(shown, &input[part.start..][..part.length], "the name");
    (part.number, part.start as u64, part.length as u64)
}

impl Library for Linked {
    fn list(&self, input: &[u8], table: &mut [u32]) -> Listed {
        listed(numbers::list(input, table))
    }

    fn list_records(&self, input: &[u8], table: &mut [u32], records: &mut [Record]) -> Listed {
        let mut entries: Vec<numbers::Entry> = records.iter().map(to_entry).collect();
        let answer = numbers::list_records(input, table, &mut entries);
        for (record, listed) in records.iter_mut().zip(&entries) {
            *record = entry(listed).numbers();
        }
        listed(answer)
    }

    fn count(&self, input: &[u8], room: usize) -> Listed {
        listed(numbers::count(input, room))
    }

    /// What is not told is zeros: the final answer of an entry that was found, and
    /// the entry where there is none.
    fn entry_at(&self, input: &[u8], room: usize, k: usize) -> Asked {
        let asked = numbers::entry_at(input, room, k);
        let (number, place, count) = listed(asked.listed);
        let found = entry(&asked.entry);
        match asked.found {
            0 => {
                assert_eq!(found, Entry::default(), "an entry where there is none");
                Asked::Final {
                    number,
                    place,
                    count,
                }
            }
            1 => {
                let told = (number, place, count);
                assert_eq!(told, (0, 0, 0), "an answer beside an entry");
                Asked::Found(found)
            }
            other => panic!("found is {}", other),
        }
    }

    fn read_plane(&self, input: &[u8], stored: &Stored, destination: &mut [u8]) -> PlaneAnswer {
        let (start, length) = (stored.start as usize, stored.length as usize);
        let plane = stored.plane as usize;
        let answer = numbers::read_plane(input, start, length, plane, stored.code, destination);
        plane_answer(answer)
    }

    fn unpack(&self, stream: &[u8], plane: u64, destination: &mut [u8]) -> PlaneAnswer {
        plane_answer(numbers::unpack(stream, destination, plane as usize))
    }

    fn pack(&self, plane: &[u8], destination: &mut [u8]) -> (u32, u64) {
        let packed = numbers::pack(plane, destination);
        (packed.number, packed.length as u64)
    }

    fn place(&self, placing: &Placing, canvas: &mut [u8], plane: &[u8]) -> u32 {
        let (width, height) = (placing.width, placing.height);
        let rect = to_rect(placing.rectangle);
        numbers::place(width, height, canvas, rect, plane, placing.row)
    }

    fn intersect(&self, one: Rectangle, other: Rectangle) -> Rectangle {
        to_rectangle(numbers::intersect(to_rect(one), to_rect(other)))
    }

    /// The part's own numbers, which a slice would not show, and the slice.
    fn palette(&self, input: &[u8], room: usize, ramp: &[u8]) -> PaletteView {
        // SAFETY: both slices are valid for their lengths, and nothing is written.
        let part = unsafe {
            ffi::psp_palette(input.as_ptr(), input.len(), room, ramp.as_ptr(), ramp.len())
        };
        let (lender, lent) = match part.which {
            0 => (Lender::Input, input),
            1 => (Lender::Ramp, ramp),
            other => panic!("a palette is a part of slice {}", other),
        };
        let shown = numbers::palette(input, room, ramp).bytes;
        assert_eq!(shown, &lent[part.start..][..part.length], "the palette");
        PaletteView {
            number: part.number,
            lender,
            start: part.start as u64,
            length: part.length as u64,
        }
    }

    fn image_facts(&self, input: &[u8], room: usize) -> (u32, ImageChunk) {
        let facts = numbers::image_facts(input, room);
        (facts.number, image_chunk(&facts.image))
    }

    fn layer_facts(&self, input: &[u8], room: usize, k: u32) -> (u32, LayerChunk) {
        let facts = numbers::layer_facts(input, room, k);
        (facts.number, layer_chunk(&facts.layer))
    }

    fn layer_name(&self, input: &[u8], room: usize, k: u32) -> (u32, u64, u64) {
        // SAFETY: the slice is valid for its length, and nothing is written.
        let part = unsafe { ffi::psp_name(input.as_ptr(), input.len(), room, k) };
        name(part, numbers::name(input, room, k).bytes, input)
    }

    fn selection_facts(&self, input: &[u8], room: usize) -> (u32, SelectionChunk) {
        selection(numbers::selection_facts(input, room))
    }

    fn alpha_facts(&self, input: &[u8], room: usize, k: u32) -> (u32, AlphaChunk) {
        alpha(numbers::alpha_facts(input, room, k))
    }

    fn alpha_name(&self, input: &[u8], room: usize, k: u32) -> (u32, u64, u64) {
        // SAFETY: the slice is valid for its length, and nothing is written.
        let part = unsafe { ffi::psp_alpha_name(input.as_ptr(), input.len(), room, k) };
        name(part, numbers::alpha_name(input, room, k).bytes, input)
    }

    fn layer_at(&self, input: &[u8], place: u64) -> (u32, LayerChunk) {
        let facts = numbers::layer_at(input, place as usize);
        (facts.number, layer_chunk(&facts.layer))
    }

    fn name_at(&self, input: &[u8], place: u64) -> (u32, u64, u64) {
        let place = place as usize;
        // SAFETY: the slice is valid for its length, and nothing is written.
        let part = unsafe { ffi::psp_name_at(input.as_ptr(), input.len(), place) };
        name(part, numbers::name_at(input, place).bytes, input)
    }

    fn selection_at(&self, input: &[u8], place: u64) -> (u32, SelectionChunk) {
        selection(numbers::selection_at(input, place as usize))
    }

    fn alpha_at(&self, input: &[u8], place: u64) -> (u32, AlphaChunk) {
        alpha(numbers::alpha_at(input, place as usize))
    }

    fn alpha_name_at(&self, input: &[u8], place: u64) -> (u32, u64, u64) {
        let place = place as usize;
        // SAFETY: the slice is valid for its length, and nothing is written.
        let part = unsafe { ffi::psp_alpha_name_at(input.as_ptr(), input.len(), place) };
        name(part, numbers::alpha_name_at(input, place).bytes, input)
    }

    fn dots(&self, resolution: Resolution) -> Option<f64> {
        let dots = numbers::dots_per_centimetre(resolution.value, resolution.metric);
        match dots.known {
            0 => {
                assert_eq!(dots.value.to_bits(), 0, "dots where there are none");
                None
            }
            1 => Some(dots.value),
            other => panic!("known is {}", other),
        }
    }

    fn write_table(&self, table: &[u32], destination: &mut [u8]) -> (u32, u64) {
        let saved = numbers::write_table(table, destination);
        (saved.number, saved.length as u64)
    }

    fn read_table(&self, file: &[u8], table: &mut [u32]) -> (u32, u64) {
        let restored = numbers::read_table(file, table);
        (restored.number, restored.count as u64)
    }
}
