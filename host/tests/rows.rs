//! Files that differ in the form of their rows alone, X-padded.psp and X-unpadded.psp of the current
//! folder: their listings agree but for places and lengths, and every plane is placed the same.
//! Built and run by host/check.

use psp::{Area, Entry, ENTRY_NUMBERS};
use std::fs;

const ROOM: usize = usize::MAX;

/// The byte that these files have as padding and nowhere as a pixel.
const PADDING: u8 = 0xEE;

struct File {
    bytes: Vec<u8>,
    entries: Vec<Entry>,
}

impl File {
    fn open(name: &str) -> File {
        let bytes = fs::read(name).expect(name);
        let count = psp::count(&bytes, ROOM).expect(name);
        let mut table = vec![0; count * ENTRY_NUMBERS];
        let mut entries = vec![Entry::default(); count];
        let listed = psp::list_records(&bytes, &mut table, &mut entries);
        assert_eq!(listed, Ok(count), "{}", name);
        File { bytes, entries }
    }

    fn channels(&self) -> impl Iterator<Item = &Entry> {
        let is_channel = |entry: &&Entry| entry.skipped == 0 && entry.id == 5;
        self.entries.iter().filter(is_channel)
    }

    /// Bits of a pixel in a channel's plane.
    fn bits(&self, channel: &Entry) -> u32 {
        let image = psp::image_facts(&self.bytes, ROOM).expect("image facts");
        match image.depth {
            depth @ (1 | 4) if channel.bitmap == 0 => depth.into(),
            _ => 8,
        }
    }

    fn plane(&self, channel: &Entry) -> Vec<u8> {
        let image = psp::image_facts(&self.bytes, ROOM).expect("image facts");
        let [start, stored, length] =
            [channel.start, channel.stored, channel.plane].map(|number| number as usize);
        let code = image.compression.into();
        let mut plane = vec![0; length];
        let read = psp::read_plane(&self.bytes, start, stored, length, code, &mut plane);
        assert_eq!(read, Ok(length));
        plane
    }

    /// The rectangles of a channel's plane.
    fn area(&self, channel: &Entry) -> Area {
        let (bytes, k) = (&self.bytes, channel.layer);
        let layer = || psp::layer_facts(bytes, ROOM, k).expect("layer facts");
        match channel.bitmap {
            0 | 1 => layer().image,
            2 => layer().mask,
            3 => psp::selection_facts(bytes, ROOM).expect("facts").area,
            _ => psp::alpha_facts(bytes, ROOM, k).expect("facts").area,
        }
    }

    /// A plane on a grey canvas of the image's size.
    fn canvas(&self, channel: &Entry) -> Vec<u8> {
        let image = psp::image_facts(&self.bytes, ROOM).expect("image facts");
        let r = self.area(channel).saved;
        let [width, height] = [image.width, image.height].map(i32::unsigned_abs);
        let mut canvas = vec![7; (width * height) as usize];
        let plane = self.plane(channel);
        let placed = psp::place(width, height, &mut canvas, r, &plane, channel.row);
        assert_eq!(placed, Ok(()));
        canvas
    }
}

/// The files with padded rows, each with its twin.
fn pairs() -> Vec<[File; 2]> {
    let files = fs::read_dir(".").expect("a folder").flatten();
    let names = files.filter_map(|file| file.file_name().into_string().ok());
    let pair = |name: String| {
        let stem = name.strip_suffix("-unpadded.psp")?;
        Some(["padded", "unpadded"].map(|form| File::open(&format!("{}-{}.psp", stem, form))))
    };
    let pairs: Vec<[File; 2]> = names.filter_map(pair).collect();
    assert_eq!(pairs.len(), 5, "the mug, and pictures of four depths");
    pairs
}

/// The numbers of an entry that do not depend on the form of a row.
fn kept(entry: &Entry) -> [u32; 8] {
    let e = entry;
    [
        e.id, e.skipped, e.level, e.layer, e.bitmap, e.channel, e.width, e.height,
    ]
}

#[test]
fn listings_agree_but_for_places_and_lengths() {
    for pair in pairs() {
        let [padded, unpadded]: [Vec<_>; 2] =
            pair.map(|file| file.entries.iter().map(kept).collect());
        assert_eq!(padded, unpadded);
    }
}

#[test]
fn a_row_is_the_padded_one_or_the_width() {
    for [padded, unpadded] in pairs() {
        for (long, short) in padded.channels().zip(unpadded.channels()) {
            let bits = padded.bits(long);
            assert_eq!(long.row, (long.width * bits + 31) / 32 * 4);
            assert_eq!(short.row, if bits == 8 { short.width } else { long.row });
            for channel in [long, short] {
                assert_eq!(channel.plane, channel.row * channel.height);
            }
        }
    }
}

#[test]
fn every_plane_is_placed_the_same() {
    let mut placed = 0;
    for [padded, unpadded] in pairs() {
        for (long, short) in padded.channels().zip(unpadded.channels()) {
            if padded.bits(long) < 8 {
                assert_eq!(padded.plane(long), unpadded.plane(short));
                continue;
            }
            let canvas = padded.canvas(long);
            assert!(padded.plane(long).contains(&PADDING) && !canvas.contains(&PADDING));
            assert_eq!(canvas, unpadded.canvas(short));
            placed += 1;
        }
    }
    // Of the mug 33 colours, 6 transparency masks and a user mask; of the others a selection and an
    // alpha channel besides those of the layer.
    assert_eq!(placed, 42 + 4 + 4 + 5 + 7);
}
