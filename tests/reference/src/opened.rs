//! An accepted file, opened: each of its channels with the rectangle that it
//! fills and the plane that it holds.

use crate::case::{Placing, Stored};
use crate::psp::chunks::ImageChunk;
use crate::psp::listing::{list, Entry, CHANNEL};
use crate::psp::planes::read_plane;
use crate::psp::rectangle::Rectangle;
use crate::psp::{number, views};

pub struct Opened {
    pub image: ImageChunk,
    /// In the file's order.
    pub channels: Vec<Channel>,
}

pub struct Channel {
    pub entry: Entry,
    pub stored: Stored,
    pub saved: Rectangle,
    pub plane: Vec<u8>,
}

/// The file, or the number of the first refusal.
pub fn open(input: &[u8], room: usize) -> Result<Opened, u32> {
    let image = views::image_facts(input, room)?;
    let code = u32::from(image.compression);
    let channels = channel_entries(input, room)
        .into_iter()
        .map(|entry| channel(input, room, entry, code))
        .collect::<Result<_, _>>()?;
    Ok(Opened { image, channels })
}

/// The entries of the channels of any input.
pub fn channel_entries(input: &[u8], room: usize) -> Vec<Entry> {
    let mut entries = list(input, room).entries;
    entries.retain(|entry| entry.id == u32::from(CHANNEL));
    entries
}

fn channel(input: &[u8], room: usize, entry: Entry, code: u32) -> Result<Channel, u32> {
    let saved = saved(input, room, &entry)?;
    let stored = Stored::of(&entry, code);
    let mut plane = vec![0; entry.plane_length as usize];
    let (start, length) = (stored.start, stored.length);
    let answer = read_plane(input, start, length, stored.plane, code, &mut plane);
    if answer.number != number::ACCEPTED {
        return Err(answer.number);
    }
    Ok(Channel {
        entry,
        stored,
        saved,
        plane,
    })
}

/// The rectangle of a channel, by its bitmap: a layer's, the selection's or an
/// alpha channel's.
fn saved(input: &[u8], room: usize, channel: &Entry) -> Result<Rectangle, u32> {
    let k = u64::from(channel.layer_number);
    Ok(match channel.bitmap {
        2 => views::layer_facts(input, room, k)?.mask_saved,
        3 => views::selection_facts(input, room)?.saved,
        4 => views::alpha_facts(input, room, k)?.area.saved,
        _ => views::layer_facts(input, room, k)?.image_saved,
    })
}

impl Opened {
    /// Where a channel of 8-bit pixels stands on a canvas of the image's size.
    pub fn placing(&self, channel: &Channel) -> Placing {
        Placing {
            width: self.image.width.unsigned_abs(),
            height: self.image.height.unsigned_abs(),
            rectangle: channel.saved,
            row: channel.entry.row,
        }
    }

    /// The bytes of such a canvas.
    pub fn pixels(&self) -> usize {
        (self.image.width * self.image.height) as usize
    }
}
