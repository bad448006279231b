//! Files that are overwritten where no rule looks: the content of channels, the
//! colours of palettes, the data of skipped blocks, the names of layers and of
//! alpha channels. The answer must be the one that the file had before, so that
//! is what it is held to; and so must the planes of the other channels.

use std::ops::Range;

use crate::case::{Case, Stored, DESTINATION_LIMIT};
use crate::psp::chunks::{BlockHeader, FileHeader, ImageChunk};
use crate::psp::listing::{list, Entry, ALPHA_CHANNEL, CHANNEL, LAYER, PALETTE};
use crate::random::Random;

const BLOCK_HEADER: usize = BlockHeader::SIZE as usize;
/// Behind the file's header and its own.
const IMAGE_CHUNK: usize = FileHeader::SIZE as usize + BLOCK_HEADER;
/// Bytes of a name.
const NAME: usize = 256;

pub struct Spoiled {
    pub room: u32,
    pub before: Vec<u8>,
    pub now: Vec<u8>,
    /// Those that are listed, each with whether it was overwritten.
    pub entries: Vec<(Entry, bool)>,
}

/// A case, and the case whose answer it must have.
pub fn any(random: &mut Random) -> (Case, Case) {
    let spoiled = spoiled(random);
    let sound = spoiled.sound_channels();
    if random.one_in(3) && !sound.is_empty() {
        let channel = random.pick(&sound);
        return spoiled.plane(random, &channel);
    }
    let room = spoiled.room;
    let listing = |input| Case::Listing { room, input };
    (listing(spoiled.now), listing(spoiled.before))
}

/// A file, valid or damaged, of which one listed entry is overwritten, or some,
/// or all.
pub fn spoiled(random: &mut Random) -> Spoiled {
    let before = super::input(random);
    let room = super::room(random, &before);
    let listed = list(&before, room as usize).entries;
    let one = random.index(listed.len());
    let every = random.pick(&[0, 0, 1, 2, 2]);
    let mut now = before.clone();
    let overwritten = |(index, entry): (usize, Entry)| {
        let chosen = index == one || (every > 0 && random.one_in(every));
        let silent = silent(&entry).filter(|silent| chosen && !silent.is_empty());
        let is = silent.is_some();
        if let Some(silent) = silent {
            overwrite(random, &mut now[silent]);
        }
        (entry, is)
    };
    let entries = listed.into_iter().enumerate().map(overwritten).collect();
    Spoiled {
        room,
        before,
        now,
        entries,
    }
}

/// The bytes of an entry that have no say.
pub fn silent(entry: &Entry) -> Option<Range<usize>> {
    let from = |start: usize, length: usize| Some(start..start + length);
    let content = || from(entry.content_start as usize, entry.stored_length as usize);
    if entry.skipped == 1 {
        return content();
    }
    match entry.id as u16 {
        PALETTE | CHANNEL => content(),
        LAYER | ALPHA_CHANNEL => from(entry.header_place as usize + BLOCK_HEADER, NAME),
        _ => None,
    }
}

/// All of it or one byte: with anything, with one value, or as if blocks stood
/// there.
fn overwrite(random: &mut Random, bytes: &mut [u8]) {
    let length = bytes.len();
    match random.below(4) {
        0 => bytes[random.index(length)] = random.byte(),
        1 => bytes.fill(random.pick(&[0, 1, 0x7F, 0x80, 0xFF])),
        2 => {
            let header = b"~BK\0\x05\0\x1A\0\0\0\0\0\0\0";
            for (byte, &other) in bytes.iter_mut().zip(header.iter().cycle()) {
                *byte = other;
            }
        }
        _ => bytes.copy_from_slice(&random.bytes(length)),
    }
}

impl Spoiled {
    /// The channels that were not overwritten.
    pub fn sound_channels(&self) -> Vec<Entry> {
        let sound = |(entry, overwritten): &(Entry, bool)| {
            let channel = entry.skipped == 0 && entry.id == u32::from(CHANNEL);
            (channel && !overwritten).then_some(*entry)
        };
        self.entries.iter().filter_map(sound).collect()
    }

    /// The plane of a channel, by the code that each file's image has.
    fn plane(self, random: &mut Random, channel: &Entry) -> (Case, Case) {
        let length = i64::from(channel.plane_length);
        let near = random.pick(&[length, length, length + 3, length - 1]);
        let destination = near.clamp(0, i64::from(DESTINATION_LIMIT)) as u32;
        let plane = |input: Vec<u8>| Case::Plane {
            stored: stored(&input, channel),
            destination,
            input,
        };
        (plane(self.now), plane(self.before))
    }
}

/// A listed channel of an input, whose image is listed before it.
pub fn stored(input: &[u8], channel: &Entry) -> Stored {
    let image = ImageChunk::decode(&input[IMAGE_CHUNK..]);
    Stored::of(channel, u32::from(image.compression))
}
