//! A field that is refused by 8, in words: its block, its name, its value, and what is permitted.
//! The place is the library's verdict. No rule is tested here again, so of a field with several
//! rules all are told.

use crate::fields::Fields;
use crate::holder::Which;
use crate::judged::Judged;
use crate::psp::ffi::{Rect, LAYER_LIMIT, SIDE_LIMIT};
use crate::shape;
use crate::words::{counted, grouped};

/// A kind of block by its id, and the words for one that is refused.
struct Kind {
    id: u32,
    words: fn(&Judged) -> Option<String>,
}

const IMAGE: Kind = Kind {
    id: 0,
    words: |_| Some("image block".to_string()),
};
const PALETTE: Kind = Kind {
    id: 2,
    words: |_| Some("palette block".to_string()),
};
const LAYER: Kind = Kind {
    id: 4,
    words: |judged| judged.holder_words(),
};
const CHANNEL: Kind = Kind {
    id: 5,
    words: |judged| judged.channel_words(),
};
/// A channel whose types were passed.
const TYPED: Kind = Kind {
    id: 5,
    words: typed_channel,
};
const SELECTION: Kind = Kind {
    id: 6,
    words: |judged| judged.holder_words(),
};
const ALPHA: Kind = Kind {
    id: 8,
    words: |judged| judged.holder_words(),
};

/// How a value reads, as it stands in the file.
type Value = fn(&mut Fields) -> Option<String>;

const BYTE: Value = |at| at.byte().map(|value| value.to_string());
const WORD: Value = |at| at.word().map(|value| value.to_string());
const DWORD: Value = |at| at.double_word().map(|value| value.to_string());
const LONG: Value = |at| at.long().map(|value| value.to_string());
const CORNERS: Value = |at| at.rectangle().map(|value| corners(&value));

enum Permitted {
    /// The same values in every file.
    Be(&'static str),
    /// By what else stands in the file.
    By(fn(&Judged) -> Option<String>),
}
use Permitted::{Be, By};

/// What to do next, where no reason is known that genuine files often have.
pub const SAVE_AGAIN: &str = "open it in Paint Shop Pro and save it again in format 3.0";
const FROM_THE_CORNER: &str = "often a saved rectangle is counted from its border's corner, \
                               and such files are not read yet (docs/FIELD.md)";
const IN_MEMORY: &str = "often it is a bitmap's size in memory, \
                         and such files are not read yet (docs/FIELD.md)";

type Next = fn(&Judged) -> &'static str;

const SAVE: Next = |_| SAVE_AGAIN;
const MEMORY: Next = |_| IN_MEMORY;
const BORDER: Next = |judged| border_advice(judged, 0);
const MASK_BORDER: Next = |judged| border_advice(judged, 2);

/// From a border's corner a rectangle is counted otherwise only if that is away from (0,0).
fn border_advice(judged: &Judged, bitmap: u32) -> &'static str {
    match judged.border(bitmap) {
        Some(border) if (border.left, border.top) != (0, 0) => FROM_THE_CORNER,
        _ => SAVE_AGAIN,
    }
}

/// Block, offset in its chunk, name in document 000, value, what is permitted, what to do next.
struct Field(Kind, usize, &'static str, Value, Permitted, Next);

#[rustfmt::skip] // a line a field
const FIELDS: [Field; 29] = [
    Field(IMAGE, 0, "image width", LONG, By(side), SAVE),
    Field(IMAGE, 4, "image height", LONG, By(side), SAVE),
    Field(IMAGE, 16, "resolution metric", BYTE, By(metric), SAVE),
    Field(IMAGE, 17, "compression type", WORD, Be("0 to 2"), SAVE),
    Field(IMAGE, 19, "bit depth", WORD, Be("1, 4, 8 or 24"), SAVE),
    Field(IMAGE, 21, "plane count", WORD, Be("1"), SAVE),
    Field(IMAGE, 23, "color count", DWORD, By(color_count), SAVE),
    Field(IMAGE, 27, "greyscale flag", BYTE, By(greyscale), SAVE),
    Field(IMAGE, 36, "layer count", WORD, By(layers), SAVE),
    Field(PALETTE, 0, "palette entry count", DWORD, By(entries), SAVE),
    Field(LAYER, 256, "layer type", BYTE, Be("0 or 1"), SAVE),
    Field(LAYER, 257, "image rectangle", CORNERS, By(border), SAVE),
    Field(LAYER, 273, "saved image rectangle", CORNERS, By(saved_image), BORDER),
    Field(LAYER, 294, "mask rectangle", CORNERS, By(border), SAVE),
    Field(LAYER, 310, "saved mask rectangle", CORNERS, By(saved_mask), MASK_BORDER),
    Field(LAYER, 329, "blend range count", WORD, Be("0 to 5"), SAVE),
    Field(LAYER, 371, "count of bitmaps", WORD, Be("1 to 3"), SAVE),
    Field(LAYER, 373, "channel count", WORD, By(channels), SAVE),
    Field(TYPED, 4, "uncompressed channel length", DWORD, By(plane_length), MEMORY),
    Field(CHANNEL, 8, "bitmap type", WORD, By(bitmap_type), SAVE),
    Field(CHANNEL, 10, "channel type", WORD, By(channel_type), SAVE),
    Field(SELECTION, 0, "selection rectangle", CORNERS, By(border), SAVE),
    Field(SELECTION, 16, "saved selection rectangle", CORNERS, By(saved_selection), BORDER),
    Field(SELECTION, 32, "selection bitmap count", WORD, Be("1"), SAVE),
    Field(SELECTION, 34, "channel count", WORD, Be("1"), SAVE),
    Field(ALPHA, 256, "alpha channel rectangle", CORNERS, By(border), SAVE),
    Field(ALPHA, 272, "saved alpha channel rectangle", CORNERS, By(saved_alpha), BORDER),
    Field(ALPHA, 288, "alpha channel bitmap count", WORD, Be("1"), SAVE),
    Field(ALPHA, 290, "channel count", WORD, Be("1"), SAVE),
];

/// The words for the field at a refusal's place, and what to do next. None where the entries before
/// it and the bytes at it lead to no field.
pub fn field(place: usize, table: &[u32], input: &[u8]) -> Option<(String, &'static str)> {
    let judged = Judged::behind(table, input)?;
    let at = place.checked_sub(judged.chunk())?;
    let Field(kind, .., next) = find(&judged, at)?;
    let block = (kind.words)(&judged)?;
    let (_, words) = told(&judged, at)?;
    Some((format!("{}, {}", block, words), next(&judged)))
}

/// The fields of a block that are judged, by their offsets in its chunk, in file order.
pub fn offsets(id: u32) -> impl Iterator<Item = usize> {
    let fields = FIELDS.iter().filter(move |field| field.0.id == id);
    fields.map(|field| field.1)
}

/// The field at an offset of the block's chunk: its bytes, and its name, its value and what is
/// permitted.
pub fn told<'a>(judged: &Judged<'a>, offset: usize) -> Option<(&'a [u8], String)> {
    let Field(_, _, name, value, permitted, _) = find(judged, offset)?;
    let place = judged.chunk().checked_add(offset)?;
    let mut fields = Fields::at(judged.input, place)?;
    let there = fields.left();
    let value = value(&mut fields)?;
    let bytes = judged.input.get(place..)?.get(..there - fields.left())?;
    let permitted = match permitted {
        Be(values) => format!("it must be {}", values),
        By(rules) => rules(judged)?,
    };
    Some((bytes, format!("{} {}: {}", name, value, permitted)))
}

fn find(judged: &Judged, offset: usize) -> Option<&'static Field> {
    let is_it = |field: &&Field| field.0.id == judged.id && field.1 == offset;
    FIELDS.iter().find(is_it)
}

fn typed_channel(judged: &Judged) -> Option<String> {
    let of = judged.channel()?;
    Some(format!(
        "{} (bitmap type {}, channel type {})",
        judged.channel_words()?,
        of.bitmap,
        of.channel
    ))
}

fn side(_: &Judged) -> Option<String> {
    Some(format!("it must be 1 to {}", grouped(SIDE_LIMIT)))
}

fn metric(judged: &Judged) -> Option<String> {
    let permitted = "0 with any resolution value, or 1 or 2 with a finite one above 0";
    let value = judged.image()?.resolution.value;
    Some(format!(
        "it must be {}, and here the value is {:?}",
        permitted, value
    ))
}

fn color_count(judged: &Judged) -> Option<String> {
    let depth = judged.image()?.depth;
    let count = grouped(power(depth)?);
    Some(format!("2 to the bit depth {} is {}", depth, count))
}

fn greyscale(judged: &Judged) -> Option<String> {
    Some(format!(
        "it must be 0, or 1 at bit depth 8, and here the bit depth is {}",
        judged.image()?.depth
    ))
}

fn layers(judged: &Judged) -> Option<String> {
    let image = judged.image()?;
    Some(format!(
        "it must be 1 to {}, and 1 where the bit depth is below 24 and the greyscale flag 0, \
         and here they are {} and {}",
        LAYER_LIMIT, image.depth, image.grey
    ))
}

fn entries(judged: &Judged) -> Option<String> {
    let depth = judged.image()?.depth;
    let most = grouped(power(depth)?);
    Some(format!("it must be 1 to {} at bit depth {}", most, depth))
}

fn border(_: &Judged) -> Option<String> {
    Some(CORNERS_ARE.to_string())
}

fn saved_image(judged: &Judged) -> Option<String> {
    saved(judged, 0, "image rectangle")
}

fn saved_mask(judged: &Judged) -> Option<String> {
    saved(judged, 2, "mask rectangle")
}

fn saved_selection(judged: &Judged) -> Option<String> {
    saved(judged, 3, "selection rectangle")
}

fn saved_alpha(judged: &Judged) -> Option<String> {
    saved(judged, 4, "alpha channel rectangle")
}

const CORNERS_ARE: &str = "coordinates are -32,768 to 32,767, corners must be in order";

/// The saved rectangle of a bitmap's planes, with the one around it.
fn saved(judged: &Judged, bitmap: u32, around: &str) -> Option<String> {
    Some(format!(
        "sides are 0 to {}, {}, and it must lie inside the {} {} unless it is empty",
        grouped(SIDE_LIMIT),
        CORNERS_ARE,
        around,
        corners(&judged.border(bitmap)?)
    ))
}

fn channels(judged: &Judged) -> Option<String> {
    let bitmaps = judged.bitmaps()?.into();
    let depth = judged.image()?.depth;
    let colours = if depth == 24 { 3 } else { 1 };
    Some(format!(
        "it must be {}: {} (bit depth {}) + {} - 1",
        colours + bitmaps - 1,
        counted(colours, "colour channel"),
        depth,
        counted(bitmaps, "bitmap")
    ))
}

fn bitmap_type(judged: &Judged) -> Option<String> {
    let here = match judged.which()? {
        Which::Layer(_) => "in a layer 0 to 2",
        Which::Selection => "in a selection 3",
        Which::Alpha(_) => "in an alpha channel 4",
    };
    Some(format!("it must be 0 to 5, and {}", here))
}

fn channel_type(judged: &Judged) -> Option<String> {
    let here = match judged.which()? {
        Which::Layer(_) => "",
        Which::Selection => ", and in a selection 0",
        Which::Alpha(_) => ", and in an alpha channel 0",
    };
    Some(format!("it must be 0 to 3{}", here))
}

/// The lengths that the channel's plane may have.
fn plane_length(judged: &Judged) -> Option<String> {
    let bitmap = judged.channel()?.bitmap.into();
    let bits = shape::bits(&judged.image()?, bitmap);
    let [_, _, width, height] = shape::sides(&judged.saved(bitmap)?);
    let permitted = match shape::lengths(width, height, bits) {
        (padded, Some(short)) => {
            let [padded, short] = [padded, short].map(grouped);
            format!("{} bytes with padded rows or {} without", padded, short)
        }
        (padded, None) if bits < 8 => {
            let why = "with padded rows, the only ones below 8 bits";
            format!("{} bytes {}", grouped(padded), why)
        }
        (length, None) => format!("{} bytes", grouped(length)),
    };
    Some(format!(
        "{} by {} pixels of {} take {}",
        width,
        height,
        counted(bits.into(), "bit"),
        permitted
    ))
}

/// 2 to a depth that was passed.
fn power(depth: u16) -> Option<u32> {
    1u32.checked_shl(depth.into())
}

fn corners(r: &Rect) -> String {
    format!("({},{})-({},{})", r.left, r.top, r.right, r.bottom)
}

#[cfg(test)]
mod tests {
    use super::*;
    use crate::fields::HEADER;
    use crate::psp::ffi::ENTRY_NUMBERS;

    /// Bytes at an offset of a chunk.
    type Bytes<'a> = (usize, &'a [u8]);

    /// Blocks one behind another. All but the last are listed, and those of unknown ids are skipped.
    struct File {
        input: Vec<u8>,
        table: Vec<u32>,
        /// Id, skipped, level, place, bytes owned, number among its kind.
        last: Option<[u32; 6]>,
    }

    impl File {
        fn new() -> File {
            File {
                input: vec![0; 36],
                table: Vec::new(),
                last: None,
            }
        }

        fn with(mut self, id: u16, size: usize, chunk: &[Bytes]) -> File {
            if let Some(listed) = self.last {
                self.table.extend(listed);
                self.table.extend([0; ENTRY_NUMBERS - 6]);
            }
            let place = self.input.len();
            let owned = HEADER + size;
            let skipped = u32::from(id > 11);
            let entries = self.table.chunks(ENTRY_NUMBERS);
            let number = entries.filter(|entry| entry[0] == id.into()).count() as u32;
            self.last = Some([id.into(), skipped, 0, place as u32, owned as u32, number]);
            self.input.extend(b"~BK\0");
            self.input.extend(id.to_le_bytes());
            self.input.resize(place + owned, 0);
            for (offset, bytes) in chunk {
                let at = place + HEADER + offset;
                self.input[at..at + bytes.len()].copy_from_slice(bytes);
            }
            self
        }

        fn image(depth: u8, changed: &[Bytes]) -> File {
            let chunk: [Bytes; 3] = [(0, &[1]), (4, &[2]), (19, &[depth])];
            File::new().with(0, 38, &[&chunk, changed].concat())
        }

        fn layer(self, name: &[u8], changed: &[Bytes]) -> File {
            self.with(4, 375, &[&[(0, name)], changed].concat())
        }

        fn channel(self, [bitmap, channel]: [u8; 2], plane: u8) -> File {
            self.with(5, 12, &[(4, &[plane]), (8, &[bitmap]), (10, &[channel])])
        }

        /// What is said of the field at an offset of the last block's chunk.
        fn said(&self, offset: usize) -> Option<(String, &'static str)> {
            let [.., place, _, _] = self.last?;
            let place = place as usize + HEADER + offset;
            field(place, &self.table, &self.input)
        }

        fn words(&self, offset: usize) -> String {
            self.said(offset).expect("a field").0
        }
    }

    #[test]
    fn fields_stand_in_file_order_by_different_names() {
        let keys: Vec<(u32, usize)> = FIELDS.iter().map(|field| (field.0.id, field.1)).collect();
        assert!(keys.windows(2).all(|two| two[0] < two[1]));
        // Document 000 calls one field of three chunks by one name.
        let mut names: Vec<_> = FIELDS.iter().map(|field| (field.2, field.0.id)).collect();
        names.sort();
        names.dedup();
        assert_eq!(names.len(), FIELDS.len());
        names.dedup_by_key(|(name, _)| *name);
        assert_eq!(names.len(), FIELDS.len() - 2);
    }

    #[test]
    fn an_image_has_values_that_never_change() {
        let image = File::image(8, &[(17, &[3]), (21, &[2, 1])]);
        let told = [
            (0, "image width 1: it must be 1 to 30,000"),
            (4, "image height 2: it must be 1 to 30,000"),
            (17, "compression type 3: it must be 0 to 2"),
            (19, "bit depth 8: it must be 1, 4, 8 or 24"),
            (21, "plane count 258: it must be 1"),
        ];
        for (offset, words) in told {
            let (found, next) = image.said(offset).expect("a field");
            assert_eq!(found, format!("image block, {}", words));
            assert_eq!(next, SAVE_AGAIN);
        }
        let below = File::image(8, &[(0, &[0xFF; 4])]);
        assert!(below.words(0).starts_with("image block, image width -1: "));
    }

    #[test]
    fn a_metric_is_told_with_its_value() {
        let told = [
            (72.5, "72.5"),
            (-0.0, "-0.0"),
            (f64::NAN, "NaN"),
            (f64::INFINITY, "inf"),
            (5e-324, "5e-324"),
        ];
        for (value, text) in told {
            let image = File::image(8, &[(8, &value.to_le_bytes()), (16, &[3])]);
            let words =
                "image block, resolution metric 3: it must be 0 with any resolution value, \
                         or 1 or 2 with a finite one above 0, and here the value is ";
            assert_eq!(image.words(16), format!("{}{}", words, text));
        }
    }

    #[test]
    fn fields_by_the_depth_are_told_with_it() {
        let [paletted, true_colour] = [1, 24].map(|depth| {
            let counts: [Bytes; 3] = [(23, &[9]), (27, &[2]), (36, &[65])];
            File::image(depth, &counts)
        });
        let told = [
            (23, "color count 9: 2 to the bit depth 1 is 2"),
            (
                27,
                "greyscale flag 2: it must be 0, or 1 at bit depth 8, and here the bit depth is 1",
            ),
            (
                36,
                "layer count 65: it must be 1 to 64, and 1 where the bit depth is below 24 \
                 and the greyscale flag 0, and here they are 1 and 2",
            ),
        ];
        for (offset, words) in told {
            assert_eq!(paletted.words(offset), format!("image block, {}", words));
        }
        let colours = "image block, color count 9: 2 to the bit depth 24 is 16,777,216";
        assert_eq!(true_colour.words(23), colours);
        assert!(true_colour.words(36).ends_with(" they are 24 and 2"));
        // The depth is passed before; were it not, there would be no such count.
        assert_eq!(File::image(32, &[]).said(23), None);
    }

    #[test]
    fn a_palette_has_entries_by_the_depth() {
        for (depth, most) in [(1, 2), (4, 16), (8, 256)] {
            let palette = File::image(depth, &[]).with(2, 4, &[(0, &[1, 2, 3, 4])]);
            let (found, next) = palette.said(0).expect("a field");
            let words = "palette block, palette entry count 67305985: it must be 1 to";
            assert_eq!(found, format!("{} {} at bit depth {}", words, most, depth));
            assert_eq!(next, SAVE_AGAIN);
        }
    }

    #[test]
    fn a_layer_is_told_by_number_and_name() {
        let first = File::image(8, &[]).with(3, 0, &[]).layer(b"Blue", &[]);
        let words = "layer 0 (\"Blue\"), layer type 0: it must be 0 or 1";
        assert_eq!(first.words(256), words);
        let skipped = first.channel([0, 0], 4).with(12, 99, &[]);
        let second = skipped.layer(b"\x1B[2J\xE9\"\0Blue", &[(256, &[2])]);
        let words = "layer 1 (\"\\x1B[2Jé\\\"\"), layer type 2: it must be 0 or 1";
        assert_eq!(second.words(256), words);
        let long = second.layer(&[b'x'; 256], &[(256, &[9])]);
        let words = format!("layer 2 (\"{}\"), layer type 9: ", "x".repeat(256));
        assert!(long.words(256).starts_with(&words));
    }

    #[test]
    fn counts_of_a_layer_are_told() {
        let counts: [Bytes; 3] = [(329, &[6]), (371, &[2]), (373, &[7])];
        let told = |depth| {
            let layer = File::image(depth, &[]).layer(b"", &counts);
            [329, 371, 373].map(|offset| layer.words(offset))
        };
        let words = [
            "blend range count 6: it must be 0 to 5",
            "count of bitmaps 2: it must be 1 to 3",
            "channel count 7: it must be 4: 3 colour channels (bit depth 24) + 2 bitmaps - 1",
        ];
        assert_eq!(
            told(24),
            words.map(|words| format!("layer 0 (\"\"), {}", words))
        );
        let one = "channel count 7: it must be 2: 1 colour channel (bit depth 4) + 2 bitmaps - 1";
        assert_eq!(told(4)[2], format!("layer 0 (\"\"), {}", one));
    }

    /// A layer with rectangles at these offsets: left, top, right, bottom.
    fn with_rectangles(rectangles: &[(usize, [i32; 4])]) -> File {
        let stored = |sides: &[i32; 4]| sides.map(i32::to_le_bytes).concat();
        let stored: Vec<_> = rectangles.iter().map(|r| (r.0, stored(&r.1))).collect();
        let chunk: Vec<Bytes> = stored.iter().map(|r| (r.0, &r.1[..])).collect();
        File::image(8, &[]).layer(b"", &chunk)
    }

    #[test]
    fn a_border_is_told_by_its_corners() {
        let layer = with_rectangles(&[(257, [-8, -4, 9, 7]), (294, [i32::MIN, 3, i32::MAX, 1])]);
        let rules = "coordinates are -32,768 to 32,767, corners must be in order";
        let told = [
            (257, "image rectangle (-8,-4)-(9,7)"),
            (294, "mask rectangle (-2147483648,3)-(2147483647,1)"),
        ];
        for (offset, rectangle) in told {
            let words = format!("layer 0 (\"\"), {}: {}", rectangle, rules);
            assert_eq!(layer.said(offset), Some((words, SAVE_AGAIN)));
        }
    }

    #[test]
    fn a_saved_rectangle_is_told_with_its_border() {
        let image = [(257, [-8, -4, 9, 7]), (273, [0, 0, 30001, 4])];
        let mask = [(294, [0, 0, 3, 4]), (310, [4, 3, 2, -1])];
        let layer = with_rectangles(&[image, mask].concat());
        let rules = "sides are 0 to 30,000, coordinates are -32,768 to 32,767, \
                     corners must be in order, and it must lie inside the";
        let told = [
            (
                273,
                "image",
                "(0,0)-(30001,4)",
                "(-8,-4)-(9,7)",
                FROM_THE_CORNER,
            ),
            (310, "mask", "(4,3)-(2,-1)", "(0,0)-(3,4)", SAVE_AGAIN),
        ];
        for (offset, of, saved, around, next) in told {
            let words = format!(
                "layer 0 (\"\"), saved {} rectangle {}: {} {} rectangle {} unless it is empty",
                of, saved, rules, of, around
            );
            assert_eq!(layer.said(offset), Some((words, next)));
        }
    }

    /// A layer whose saved rectangles have 9 by 3 and 5 by 1 pixels.
    fn with_planes(depth: u8) -> File {
        let sides: [Bytes; 4] = [(281, &[9]), (285, &[3]), (318, &[5]), (322, &[1])];
        File::image(depth, &[])
            .with(3, 0, &[])
            .layer(b"Red", &sides)
    }

    #[test]
    fn a_plane_length_is_told_with_those_that_are_permitted() {
        for depth in [8, 24] {
            let words = "layer 0 (\"Red\"), channel 0 (bitmap type 0, channel type 3), \
                         uncompressed channel length 35: 9 by 3 pixels of 8 bits \
                         take 36 bytes with padded rows or 27 without";
            let said = with_planes(depth).channel([0, 3], 35).said(4);
            assert_eq!(said, Some((words.to_string(), IN_MEMORY)));
        }
        let mask = with_planes(1).channel([2, 0], 27);
        let lengths =
            "length 27: 5 by 1 pixels of 8 bits take 8 bytes with padded rows or 5 without";
        assert!(mask.words(4).ends_with(lengths));
    }

    #[test]
    fn below_8_bits_one_plane_length_is_permitted() {
        for (depth, pixels) in [(4, "4 bits take 24"), (1, "1 bit take 12")] {
            let words = with_planes(depth).channel([0, 0], 27).words(4);
            let lengths = format!(
                "length 27: 9 by 3 pixels of {} bytes with padded rows, the only ones below 8 bits",
                pixels
            );
            assert!(words.ends_with(&lengths), "{}", words);
        }
    }

    #[test]
    fn a_channel_is_told_by_its_layer_and_number() {
        let first = with_planes(24).channel([6, 4], 0);
        let said =
            |words: &str| Some((format!("layer 0 (\"Red\"), channel {}", words), SAVE_AGAIN));
        let types = "it must be 0 to 5, and in a layer 0 to 2";
        assert_eq!(first.said(8), said(&format!("0, bitmap type 6: {}", types)));
        assert_eq!(first.said(10), said("0, channel type 4: it must be 0 to 3"));
        // A skipped block is no channel, and those of another layer do not count.
        let third = first.with(99, 7, &[]).channel([0, 2], 0).channel([7, 9], 0);
        assert_eq!(third.said(8), said(&format!("2, bitmap type 7: {}", types)));
        let other = third.layer(b"White", &[]).channel([1, 0], 0);
        let words = "layer 1 (\"White\"), channel 0 (bitmap type 1, channel type 0), ";
        assert!(other.words(4).starts_with(words));
    }

    /// A selection, and behind it an alpha bank with an alpha channel. Both saved rectangles have 9
    /// by 3 pixels.
    fn with_masks() -> [File; 2] {
        let selection: [Bytes; 3] = [(24, &[9]), (28, &[3]), (32, &[2, 1])];
        let alpha: [Bytes; 5] = [
            (0, b"Varnish"),
            (256, &[1]),
            (280, &[9]),
            (284, &[3]),
            (290, &[7]),
        ];
        let file = || File::image(1, &[]).with(3, 0, &[]).layer(b"Red", &[]);
        let selected = || file().channel([0, 0], 4).with(6, 36, &selection);
        let bank = selected().channel([3, 0], 27).with(7, 2, &[]);
        [selected(), bank.with(8, 292, &alpha)]
    }

    #[test]
    fn a_selection_and_an_alpha_channel_have_names_of_their_own() {
        let [selection, alpha] = with_masks();
        let rules = "coordinates are -32,768 to 32,767, corners must be in order";
        let inside = format!(
            "sides are 0 to 30,000, {}, and it must lie inside the",
            rules
        );
        let counted = "it must be 1";
        let told = [
            (0, format!("selection rectangle (0,0)-(0,0): {}", rules)),
            (
                16,
                format!(
                    "saved selection rectangle (0,0)-(9,3): {} selection rectangle (0,0)-(0,0) \
                     unless it is empty",
                    inside
                ),
            ),
            (32, format!("selection bitmap count 258: {}", counted)),
            (34, format!("channel count 0: {}", counted)),
        ];
        for (offset, words) in told {
            let words = format!("selection, {}", words);
            assert_eq!(selection.said(offset), Some((words, SAVE_AGAIN)));
        }
        let told = [
            (
                256,
                format!("alpha channel rectangle (1,0)-(0,0): {}", rules),
                SAVE_AGAIN,
            ),
            (
                272,
                format!(
                    "saved alpha channel rectangle (0,0)-(9,3): {} alpha channel rectangle \
                     (1,0)-(0,0) unless it is empty",
                    inside
                ),
                FROM_THE_CORNER,
            ),
            (
                288,
                format!("alpha channel bitmap count 0: {}", counted),
                SAVE_AGAIN,
            ),
            (290, format!("channel count 7: {}", counted), SAVE_AGAIN),
        ];
        for (offset, words, next) in told {
            let words = format!("alpha channel 0 (\"Varnish\"), {}", words);
            assert_eq!(alpha.said(offset), Some((words, next)));
        }
    }

    #[test]
    fn a_channel_is_told_by_what_it_lies_in() {
        let [selection, alpha] = with_masks();
        let selected = selection.channel([6, 4], 35);
        let types = "it must be 0 to 5, and in a selection 3";
        let words = format!("selection, channel 0, bitmap type 6: {}", types);
        assert_eq!(selected.words(8), words);
        let words = "selection, channel 0, channel type 4: it must be 0 to 3, and in a selection 0";
        assert_eq!(selected.words(10), words);
        // Numbers of a layer and of an alpha channel may be the same: the last of them holds it.
        let second = alpha.channel([4, 0], 36).with(8, 292, &[(0, b"Gloss")]);
        let words = "alpha channel 1 (\"Gloss\"), channel count 0: it must be 1";
        assert_eq!(second.words(290), words);
        let channel = second.with(99, 3, &[]).channel([9, 9], 0);
        let words = "alpha channel 1 (\"Gloss\"), channel 0, bitmap type 9: \
                     it must be 0 to 5, and in an alpha channel 4";
        assert_eq!(channel.words(8), words);
        let words = "alpha channel 1 (\"Gloss\"), channel 0, channel type 9: \
                     it must be 0 to 3, and in an alpha channel 0";
        assert_eq!(channel.words(10), words);
    }

    #[test]
    fn the_plane_of_a_mask_has_8_bits_at_every_depth() {
        let [selection, alpha] = with_masks();
        let lengths = "9 by 3 pixels of 8 bits take 36 bytes with padded rows or 27 without";
        let told = [
            (selection.channel([3, 0], 35), "selection", 3),
            (
                alpha.channel([4, 0], 35),
                "alpha channel 0 (\"Varnish\")",
                4,
            ),
        ];
        for (file, holder, bitmap) in told {
            let words = format!(
                "{}, channel 0 (bitmap type {}, channel type 0), \
                 uncompressed channel length 35: {}",
                holder, bitmap, lengths
            );
            assert_eq!(file.said(4), Some((words, IN_MEMORY)));
        }
    }

    #[test]
    fn what_is_no_field_has_no_words() {
        let file = with_planes(24).channel([0, 1], 0);
        let (table, input) = (&file.table, &file.input);
        let chunk = 36 + 52 + 14 + 389 + HEADER;
        let found = |place, table, input| field(place, table, input).is_some();
        assert!(found(chunk + 4, table, input));
        // Entries of other places, none, and numbers that make no entry.
        for other in [
            &table[..2 * ENTRY_NUMBERS],
            &table[..3],
            &[],
            &[u32::MAX; 28],
        ] {
            assert!(!found(chunk + 4, other, input));
        }
        // An input that ends before the field, or before the block.
        for length in [chunk + 7, chunk, chunk - 1, 36, 0] {
            assert!(!found(chunk + 4, table, &input[..length]));
        }
        // Every other place of the input, and places that it has not.
        for place in (0..input.len() + 9).chain([usize::MAX]) {
            let is_field = place >= chunk && [4, 8, 10].contains(&(place - chunk));
            assert_eq!(found(place, table, input), is_field, "{}", place);
        }
        assert!(!found(chunk + 4, table, &[]));
    }
}
