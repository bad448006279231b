//! A block whose header is there.

use super::refusal::{refuse, Number, Walked};

/// Bytes of a block's header.
pub const HEADER: usize = 14;

/// Ids from here on are skipped at every level.
pub const UNKNOWN: u32 = 12;

const MARK: u32 = u32::from_le_bytes(*b"\x7EBK\0");

/// A field of a chunk, at an offset inside it.
#[inline(always)]
pub fn field<const N: usize>(chunk: &[u8], at: usize) -> [u8; N] {
    *chunk[at..].first_chunk().expect("a field of the chunk")
}

#[inline(always)]
pub fn word(chunk: &[u8], at: usize) -> u32 {
    u32::from(u16::from_le_bytes(field(chunk, at)))
}

#[inline(always)]
pub fn dword(chunk: &[u8], at: usize) -> u32 {
    u32::from_le_bytes(field(chunk, at))
}

#[derive(Clone, Copy)]
pub struct Block<'a> {
    header: &'a [u8; HEADER],
    /// What its level has behind the header.
    pub tail: &'a [u8],
    /// The place of the header.
    pub at: usize,
}

impl<'a> Block<'a> {
    /// The block in front of some bytes, at a place.
    #[inline(always)]
    pub fn first(bytes: &'a [u8], at: usize) -> Option<Block<'a>> {
        let (header, tail) = bytes.split_first_chunk()?;
        Some(Block { header, tail, at })
    }

    #[inline(always)]
    pub fn is_marked(&self) -> bool {
        dword(self.header, 0) == MARK
    }

    #[inline(always)]
    pub fn id(&self) -> u32 {
        word(self.header, 4)
    }

    #[inline(always)]
    pub fn initial(&self) -> u32 {
        dword(self.header, 6)
    }

    #[inline(always)]
    pub fn total(&self) -> usize {
        dword(self.header, 10) as usize
    }

    /// The place behind the header.
    #[inline(always)]
    pub fn start(&self) -> usize {
        self.at + HEADER
    }

    /// A refusal at the header.
    #[inline(always)]
    pub fn refuse<T>(&self, number: Number) -> Walked<T> {
        refuse(number, self.at)
    }

    /// Its chunk, if all of it is there.
    #[inline(always)]
    pub fn chunk<const N: usize>(&self) -> Walked<&'a [u8; N]> {
        match self.tail.first_chunk() {
            Some(chunk) => Ok(chunk),
            None => refuse(Number::EndsTooSoon, self.start()),
        }
    }
}
