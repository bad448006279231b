//! The file header, the block header and the information chunks: their sizes,
//! their fields in file order, which values are permitted, and where the first
//! that is not stands.

use super::rectangle::Rectangle;
use super::{LAYER_LIMIT, SIDE_LIMIT};

/// Takes the little-endian fields of a unit one after another. The caller has
/// seen that the unit is wholly present; past its end fields would be zero.
struct Fields<'a> {
    rest: &'a [u8],
}

impl<'a> Fields<'a> {
    fn of(unit: &'a [u8]) -> Fields<'a> {
        Fields { rest: unit }
    }

    fn bytes<const N: usize>(&mut self) -> [u8; N] {
        let (head, tail) = self.rest.split_at(N.min(self.rest.len()));
        self.rest = tail;
        let mut field = [0; N];
        for (to, from) in field.iter_mut().zip(head) {
            *to = *from;
        }
        field
    }

    fn byte(&mut self) -> u8 {
        u8::from_le_bytes(self.bytes())
    }

    fn flag(&mut self) -> bool {
        self.byte() != 0
    }

    fn word(&mut self) -> u16 {
        u16::from_le_bytes(self.bytes())
    }

    fn dword(&mut self) -> u32 {
        u32::from_le_bytes(self.bytes())
    }

    fn long(&mut self) -> i32 {
        i32::from_le_bytes(self.bytes())
    }

    fn double(&mut self) -> f64 {
        f64::from_bits(u64::from_le_bytes(self.bytes()))
    }

    fn rectangle(&mut self) -> Rectangle {
        let left = self.long();
        let top = self.long();
        let right = self.long();
        let bottom = self.long();
        Rectangle {
            left,
            top,
            right,
            bottom,
        }
    }
}

/// The lengths of document 000's types.
const BYTE: u64 = 1;
const WORD: u64 = 2;
const DWORD: u64 = 4;
const LONG: u64 = 4;
const DOUBLE: u64 = 8;
const RECTANGLE: u64 = 16;

/// Passes the fields of a chunk in file order and keeps where the first one
/// stands that is not permitted. A rule about two fields is asked at the later
/// one, so its fault is named there.
#[derive(Default)]
struct Passed {
    at: u64,
    wrong: Option<u64>,
}

impl Passed {
    fn field(self, length: u64, is_permitted: bool) -> Passed {
        let here = Some(self.at).filter(|_| !is_permitted);
        Passed {
            at: self.at + length,
            wrong: self.wrong.or(here),
        }
    }

    /// Bytes that are carried unjudged, or judged with a later field.
    fn carried(self, length: u64) -> Passed {
        self.field(length, true)
    }

    /// A border and the saved rectangle behind it. A rectangle is one field:
    /// whichever coordinate is wrong, its first corner is the place.
    fn rectangles(self, border: &Rectangle, saved: &Rectangle) -> Passed {
        let is_inside = saved.is_empty() || saved.lies_inside(border);
        self.field(RECTANGLE, border.is_permitted())
            .field(RECTANGLE, saved.is_permitted_as_saved() && is_inside)
    }
}

/// Bytes of a name before the first zero, or all 256.
fn name_length(name: &[u8; 256]) -> usize {
    let zero = name.iter().position(|&byte| byte == 0);
    zero.unwrap_or(name.len())
}

/// The words of document 000, padded with zeros to 32 bytes.
pub const SIGNATURE: [u8; 32] = *b"Paint Shop Pro Image File\n\x1a\0\0\0\0\0";

pub struct FileHeader {
    pub signature: [u8; 32],
    pub major: u16,
    pub minor: u16,
}

impl FileHeader {
    pub const SIZE: u64 = 36;

    pub fn decode(unit: &[u8]) -> FileHeader {
        let mut fields = Fields::of(unit);
        FileHeader {
            signature: fields.bytes(),
            major: fields.word(),
            minor: fields.word(),
        }
    }
}

pub const MARK: [u8; 4] = [0x7E, 0x42, 0x4B, 0x00];

#[derive(Clone, Copy)]
pub struct BlockHeader {
    pub mark: [u8; 4],
    pub id: u16,
    pub initial: u32,
    pub total: u32,
}

impl BlockHeader {
    pub const SIZE: u64 = 14;

    pub fn decode(unit: &[u8]) -> BlockHeader {
        let mut fields = Fields::of(unit);
        BlockHeader {
            mark: fields.bytes(),
            id: fields.word(),
            initial: fields.dword(),
            total: fields.dword(),
        }
    }
}

/// A resolution: a value and what it counts (0 nothing known, 1 dots an inch,
/// 2 dots a centimetre).
#[derive(Clone, Copy, Debug, Default)]
pub struct Resolution {
    pub value: f64,
    pub metric: u8,
}

impl Resolution {
    /// Metric 0 to 2; under metric 0 any bits pass, NaN too.
    pub fn is_permitted(&self) -> bool {
        match self.metric {
            0 => true,
            1 | 2 => self.has_positive_value(),
            _ => false,
        }
    }

    /// The value for metric 2, the value over 2.54 for metric 1, of a finite
    /// value above 0; none in every other case. The division may round to 0.
    pub fn dots_per_centimetre(&self) -> Option<f64> {
        if !self.has_positive_value() {
            return None;
        }
        match self.metric {
            1 => Some(self.value / 2.54),
            2 => Some(self.value),
            _ => None,
        }
    }

    fn has_positive_value(&self) -> bool {
        self.value.is_finite() && self.value > 0.0
    }
}

#[derive(Clone, Copy, Debug, Default)]
pub struct ImageChunk {
    pub width: i32,
    pub height: i32,
    pub resolution: Resolution,
    pub compression: u16,
    pub depth: u16,
    pub planes: u16,
    pub colours: u32,
    pub grey: u8,
    pub total_size: u32,
    pub active_layer: i32,
    pub layer_count: u16,
}

impl ImageChunk {
    pub const SIZE: u64 = 38;

    pub fn decode(unit: &[u8]) -> ImageChunk {
        let mut fields = Fields::of(unit);
        ImageChunk {
            width: fields.long(),
            height: fields.long(),
            resolution: Resolution {
                value: fields.double(),
                metric: fields.byte(),
            },
            compression: fields.word(),
            depth: fields.word(),
            planes: fields.word(),
            colours: fields.dword(),
            grey: fields.byte(),
            total_size: fields.dword(),
            active_layer: fields.long(),
            layer_count: fields.word(),
        }
    }

    /// Where the first field that is not permitted stands (8). Compression 2 is
    /// permitted here: it has a number of its own (11), given only when every
    /// field is good.
    pub fn wrong_field(&self) -> Option<u64> {
        let side = |length: i32| (1..=SIDE_LIMIT).contains(&i64::from(length));
        let colours = match self.depth {
            1 => Some(2),
            4 => Some(16),
            8 => Some(256),
            24 => Some(16_777_216),
            _ => None,
        };
        let grey = self.grey == 0 || (self.grey == 1 && self.depth == 8);
        let most_layers = if self.is_paletted() { 1 } else { LAYER_LIMIT };
        Passed::default()
            .field(LONG, side(self.width))
            .field(LONG, side(self.height))
            .carried(DOUBLE)
            .field(BYTE, self.resolution.is_permitted())
            .field(WORD, self.compression <= 2)
            .field(WORD, colours.is_some())
            .field(WORD, self.planes == 1)
            .field(DWORD, colours == Some(self.colours))
            .field(BYTE, grey)
            .carried(DWORD + LONG)
            .field(WORD, (1..=most_layers).contains(&self.layer_count))
            .wrong
    }

    pub fn is_grey(&self) -> bool {
        self.grey != 0
    }

    pub fn is_paletted(&self) -> bool {
        self.depth < 24 && !self.is_grey()
    }

    /// c of document 01: the colour channels of a layer.
    pub fn colour_channels(&self) -> u16 {
        if self.depth == 24 {
            3
        } else {
            1
        }
    }

    /// Bits of a pixel in a colour plane.
    pub fn colour_bits(&self) -> u64 {
        if self.depth < 24 {
            u64::from(self.depth)
        } else {
            8
        }
    }
}

pub struct PaletteChunk {
    pub count: u32,
}

impl PaletteChunk {
    pub const SIZE: u64 = 4;

    pub fn decode(unit: &[u8]) -> PaletteChunk {
        PaletteChunk {
            count: Fields::of(unit).dword(),
        }
    }

    /// The count, unless it is 1 to 2 to the depth. Only asked below depth 24.
    pub fn wrong_field(&self, depth: u16) -> Option<u64> {
        let count = self.count >= 1 && u64::from(self.count) <= 1u64 << depth.min(32);
        Passed::default().field(DWORD, count).wrong
    }

    pub fn entries_length(&self) -> u64 {
        4 * u64::from(self.count)
    }
}

#[derive(Clone, Copy, Debug)]
pub struct LayerChunk {
    pub name: [u8; 256],
    pub kind: u8,
    pub image_border: Rectangle,
    pub image_saved: Rectangle,
    pub opacity: u8,
    pub blending: u8,
    pub visible: bool,
    pub protected: bool,
    pub group: u8,
    pub mask_border: Rectangle,
    pub mask_saved: Rectangle,
    pub linked: bool,
    pub disabled: bool,
    pub inverted: bool,
    pub blend_count: u16,
    pub blend_ranges: [u8; 40],
    pub bitmaps: u16,
    pub channels: u16,
}

impl LayerChunk {
    pub const SIZE: u64 = 375;

    pub fn decode(unit: &[u8]) -> LayerChunk {
        let mut fields = Fields::of(unit);
        LayerChunk {
            name: fields.bytes(),
            kind: fields.byte(),
            image_border: fields.rectangle(),
            image_saved: fields.rectangle(),
            opacity: fields.byte(),
            blending: fields.byte(),
            visible: fields.flag(),
            protected: fields.flag(),
            group: fields.byte(),
            mask_border: fields.rectangle(),
            mask_saved: fields.rectangle(),
            linked: fields.flag(),
            disabled: fields.flag(),
            inverted: fields.flag(),
            blend_count: fields.word(),
            blend_ranges: fields.bytes(),
            bitmaps: fields.word(),
            channels: fields.word(),
        }
    }

    /// Where the first field that is not permitted stands (8).
    pub fn wrong_field(&self, colour_channels: u16) -> Option<u64> {
        // 32 bits: a count of bitmaps may be as wrong as 65,535.
        let colours_and_bitmaps = u32::from(colour_channels) + u32::from(self.bitmaps);
        Passed::default()
            .carried(self.name.len() as u64)
            .field(BYTE, self.kind <= 1)
            .rectangles(&self.image_border, &self.image_saved)
            // Opacity, blending mode, two flags, link group.
            .carried(5 * BYTE)
            .rectangles(&self.mask_border, &self.mask_saved)
            // Three flags.
            .carried(3 * BYTE)
            .field(WORD, self.blend_count <= 5)
            .carried(self.blend_ranges.len() as u64)
            .field(WORD, (1..=3).contains(&self.bitmaps))
            .field(WORD, u32::from(self.channels) + 1 == colours_and_bitmaps)
            .wrong
    }

    pub fn name_length(&self) -> usize {
        name_length(&self.name)
    }
}

impl Default for LayerChunk {
    fn default() -> LayerChunk {
        LayerChunk::decode(&[])
    }
}

#[derive(Clone, Copy, Debug, Default)]
pub struct SelectionChunk {
    pub border: Rectangle,
    pub saved: Rectangle,
    pub bitmaps: u16,
    pub channels: u16,
}

impl SelectionChunk {
    pub const SIZE: u64 = 36;

    pub fn decode(unit: &[u8]) -> SelectionChunk {
        SelectionChunk::of(&mut Fields::of(unit))
    }

    fn of(fields: &mut Fields) -> SelectionChunk {
        SelectionChunk {
            border: fields.rectangle(),
            saved: fields.rectangle(),
            bitmaps: fields.word(),
            channels: fields.word(),
        }
    }

    /// Where the first field that is not permitted stands (8).
    pub fn wrong_field(&self) -> Option<u64> {
        self.judged(Passed::default())
    }

    /// One bitmap, and one channel.
    fn judged(&self, passed: Passed) -> Option<u64> {
        passed
            .rectangles(&self.border, &self.saved)
            .field(WORD, self.bitmaps == 1)
            .field(WORD, self.channels == 1)
            .wrong
    }
}

/// The number of alpha channels, which may be any.
pub struct AlphaBankChunk {
    pub count: u16,
}

impl AlphaBankChunk {
    pub const SIZE: u64 = 2;

    pub fn decode(unit: &[u8]) -> AlphaBankChunk {
        AlphaBankChunk {
            count: Fields::of(unit).word(),
        }
    }
}

/// A name, and behind it the fields of a selection.
#[derive(Clone, Copy, Debug)]
pub struct AlphaChunk {
    pub name: [u8; 256],
    pub area: SelectionChunk,
}

impl AlphaChunk {
    pub const SIZE: u64 = 292;

    pub fn decode(unit: &[u8]) -> AlphaChunk {
        let mut fields = Fields::of(unit);
        AlphaChunk {
            name: fields.bytes(),
            area: SelectionChunk::of(&mut fields),
        }
    }

    /// Where the first field that is not permitted stands (8).
    pub fn wrong_field(&self) -> Option<u64> {
        let named = Passed::default().carried(self.name.len() as u64);
        self.area.judged(named)
    }

    pub fn name_length(&self) -> usize {
        name_length(&self.name)
    }
}

impl Default for AlphaChunk {
    fn default() -> AlphaChunk {
        AlphaChunk::decode(&[])
    }
}

#[derive(Clone, Copy)]
pub struct ChannelChunk {
    pub stored: u32,
    pub plane: u32,
    pub bitmap: u16,
    pub channel: u16,
}

impl ChannelChunk {
    pub const SIZE: u64 = 12;

    pub fn decode(unit: &[u8]) -> ChannelChunk {
        let mut fields = Fields::of(unit);
        ChannelChunk {
            stored: fields.dword(),
            plane: fields.dword(),
            bitmap: fields.word(),
            channel: fields.word(),
        }
    }

    /// The plane length follows the stored length. It is judged last, and only
    /// of an expected channel.
    pub const PLANE_LENGTH_PLACE: u64 = DWORD;

    /// Where the first code stands that document 000 gives no meaning anywhere.
    pub fn wrong_code(&self) -> Option<u64> {
        Passed::default()
            .carried(DWORD + DWORD)
            .field(WORD, self.bitmap <= 5)
            .field(WORD, self.channel <= 3)
            .wrong
    }
}
