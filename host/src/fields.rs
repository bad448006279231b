//! Fields at their fixed places: of the image that a listing has, and for the words on a refusal and
//! on the steps of a listing. Document 000 has the order of fields.

use crate::psp::ffi::{Entry, ImageChunk, Rect, Resolution};

/// Bytes of the file header: the signature and the version.
pub const FILE_HEADER: usize = 36;

/// What a file begins with.
pub const SIGNATURE: [u8; 32] = *b"Paint Shop Pro Image File\n\x1A\0\0\0\0\0";

/// Bytes of a block header.
pub const HEADER: usize = 14;

/// The mark that each block header begins with.
pub const MARK: [u8; 4] = *b"~BK\0";

/// Bytes of a name.
const NAME: usize = 256;

/// A block header.
#[derive(Clone, Copy, Debug, PartialEq, Eq)]
pub struct Block {
    pub mark: [u8; 4],
    pub id: u16,
    pub initial: u32,
    pub total: u32,
}

/// The chunk of a channel.
#[derive(Clone, Copy, Debug, PartialEq, Eq)]
pub struct Channel {
    pub stored: u32,
    pub plane: u32,
    pub bitmap: u16,
    pub channel: u16,
}

/// Major and minor version, behind the signature.
pub fn version(input: &[u8]) -> Option<(u16, u16)> {
    let mut fields = Fields::at(input, SIGNATURE.len())?;
    Some((fields.word()?, fields.word()?))
}

/// The 14 bytes at a place as a block header.
pub fn block(input: &[u8], place: usize) -> Option<Block> {
    let mut fields = Fields::at(input, place)?;
    Some(Block {
        mark: fields.bytes()?,
        id: fields.word()?,
        initial: fields.double_word()?,
        total: fields.double_word()?,
    })
}

/// The chunk of the channel whose header stands at a place.
pub fn channel(input: &[u8], place: usize) -> Option<Channel> {
    let mut fields = Fields::at(input, place.checked_add(HEADER)?)?;
    Some(Channel {
        stored: fields.double_word()?,
        plane: fields.double_word()?,
        bitmap: fields.word()?,
        channel: fields.word()?,
    })
}

/// The chunk of the image block, an entry of a listing.
pub fn image(input: &[u8], entry: &Entry) -> Option<ImageChunk> {
    let mut fields = Fields::of(input, entry)?;
    let (width, height, bits) = (fields.long()?, fields.long()?, fields.bits()?);
    let value = f64::from_bits(bits);
    let metric = fields.byte()?;
    Some(ImageChunk {
        width,
        height,
        bits,
        resolution: Resolution { value, metric },
        compression: fields.word()?,
        depth: fields.word()?,
        planes: fields.word()?,
        colours: fields.double_word()?,
        grey: fields.byte()?,
        total: fields.double_word()?,
        active: fields.long()?,
        layers: fields.word()?,
    })
}

/// Little-endian fields one after another, none where the bytes end.
pub struct Fields<'a> {
    rest: &'a [u8],
}

impl<'a> Fields<'a> {
    pub fn at(input: &'a [u8], place: usize) -> Option<Fields<'a>> {
        let rest = input.get(place..)?;
        Some(Fields { rest })
    }

    /// Behind the header of an entry, and no further than what the entry owns.
    fn of(input: &'a [u8], entry: &Entry) -> Option<Fields<'a>> {
        let place = usize::try_from(entry.place).ok()?;
        let end = place.checked_add(usize::try_from(entry.owned).ok()?)?;
        Fields::at(input.get(place..end)?, HEADER)
    }

    /// How many bytes are left.
    pub fn left(&self) -> usize {
        self.rest.len()
    }

    fn bytes<const N: usize>(&mut self) -> Option<[u8; N]> {
        let (field, rest) = (self.rest.get(..N)?, self.rest.get(N..)?);
        self.rest = rest;
        field.try_into().ok()
    }

    pub fn byte(&mut self) -> Option<u8> {
        self.bytes().map(u8::from_le_bytes)
    }

    pub fn word(&mut self) -> Option<u16> {
        self.bytes().map(u16::from_le_bytes)
    }

    pub fn double_word(&mut self) -> Option<u32> {
        self.bytes().map(u32::from_le_bytes)
    }

    pub fn long(&mut self) -> Option<i32> {
        self.bytes().map(i32::from_le_bytes)
    }

    fn bits(&mut self) -> Option<u64> {
        self.bytes().map(u64::from_le_bytes)
    }

    pub fn rectangle(&mut self) -> Option<Rect> {
        Some(Rect {
            left: self.long()?,
            top: self.long()?,
            right: self.long()?,
            bottom: self.long()?,
        })
    }

    /// A name: of its 256 bytes those before the first zero, or all.
    pub fn name(&mut self) -> Option<&'a [u8]> {
        let field = self.rest.get(..NAME)?;
        self.rest = self.rest.get(NAME..)?;
        field.split(|&byte| byte == 0).next()
    }
}

#[cfg(test)]
mod tests {
    use super::*;

    /// An entry at place 2 whose block header is followed by a chunk of these bytes.
    fn entry(chunk: &[u8]) -> (Vec<u8>, Entry) {
        let mut input = vec![0xEE; 2 + HEADER];
        input.extend_from_slice(chunk);
        let owned = (HEADER + chunk.len()) as u32;
        let entry = Entry {
            place: 2,
            owned,
            ..Entry::default()
        };
        (input, entry)
    }

    /// Bytes that differ from place to place: 1, 2, 3 and so on.
    fn counted(length: usize) -> Vec<u8> {
        (0..length).map(|at| (at % 250 + 1) as u8).collect()
    }

    #[test]
    fn image_fields_stand_at_their_places() {
        let (input, entry) = entry(&counted(38));
        let image = image(&input, &entry).expect("a whole chunk");
        assert_eq!((image.width, image.height), (0x0403_0201, 0x0807_0605));
        assert_eq!(image.bits, 0x100F_0E0D_0C0B_0A09);
        assert_eq!(image.resolution.value.to_bits(), image.bits);
        assert_eq!((image.resolution.metric, image.compression), (17, 0x1312));
        assert_eq!((image.depth, image.planes), (0x1514, 0x1716));
        assert_eq!((image.colours, image.grey), (0x1B1A_1918, 28));
        assert_eq!((image.total, image.active), (0x201F_1E1D, 0x2423_2221));
        assert_eq!(image.layers, 0x2625);
    }

    #[test]
    fn nothing_is_read_behind_what_an_entry_owns() {
        let (input, whole) = entry(&counted(38));
        assert!(image(&input, &whole).is_some());
        assert!(image(&input[..input.len() - 1], &whole).is_none());
        let short = Entry {
            owned: whole.owned - 1,
            ..whole
        };
        assert!(image(&input, &short).is_none());
        let far = Entry {
            place: u32::MAX,
            ..whole
        };
        assert!(image(&input, &far).is_none());
    }

    #[test]
    fn a_name_ends_before_its_first_zero_or_is_all_256() {
        let name = |bytes: &[u8]| {
            let mut input = bytes.to_vec();
            input.resize(2 * NAME, 0);
            let mut fields = Fields { rest: &input };
            fields.name().map(<[u8]>::to_vec)
        };
        assert_eq!(name(b"").as_deref(), Some(&b""[..]));
        assert_eq!(name(b"ab\0c").as_deref(), Some(&b"ab"[..]));
        assert_eq!(name(&[b'x'; 300]).as_deref(), Some(&[b'x'; NAME][..]));
    }

    #[test]
    fn headers_are_read_where_they_are_whole() {
        let mut input = vec![0; 36];
        input[32] = 5;
        input[34] = 1;
        assert_eq!(version(&input), Some((5, 1)));
        assert_eq!(version(&input[..35]), None);
        input.extend_from_slice(b"~BK\0\x05\0\x0C\0\0\0\x10\x01\0\0....\x05\x06\0\0\x02\0\x03\0");
        let block_of = block(&input, 36).expect("a header");
        assert_eq!((block_of.mark, block_of.id), (MARK, 5));
        assert_eq!((block_of.initial, block_of.total), (12, 272));
        let channel_of = Channel {
            stored: 0x2E2E_2E2E,
            plane: 0x605,
            bitmap: 2,
            channel: 3,
        };
        assert_eq!(channel(&input, 36), Some(channel_of));
        assert_eq!(channel(&input[..61], 36), None);
        assert_eq!(block(&input[..49], 36), None);
        assert_eq!(block(&input, usize::MAX), None);
        assert_eq!(channel(&input, usize::MAX), None);
    }
}
