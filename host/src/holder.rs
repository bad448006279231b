//! What holds planes: a layer, the selection or an alpha channel.

use crate::psp::ffi::{AlphaChunk, Area, Entry, LayerChunk, SelectionChunk};
use std::fmt::{self, Display, Formatter};

/// Which one it is; layers count from 0 in file order, and alpha channels likewise.
#[derive(Clone, Copy, Debug, PartialEq, Eq)]
pub enum Which {
    Layer(u32),
    Selection,
    Alpha(u32),
}

impl Which {
    /// Which one an entry is, if it holds planes.
    pub fn of(entry: &Entry) -> Option<Which> {
        match (entry.skipped, entry.id) {
            (0, 4) => Some(Which::Layer(entry.layer)),
            (0, 6) => Some(Which::Selection),
            (0, 8) => Some(Which::Alpha(entry.layer)),
            _ => None,
        }
    }

    pub fn is_layer(self) -> bool {
        matches!(self, Which::Layer(_))
    }

    /// The bitmap of the planes that have its own rectangle; a layer has masks besides.
    pub fn bitmap(self) -> u32 {
        match self {
            Which::Layer(_) => 0,
            Which::Selection => 3,
            Which::Alpha(_) => 4,
        }
    }
}

impl Display for Which {
    fn fmt(&self, f: &mut Formatter<'_>) -> fmt::Result {
        match self {
            Which::Layer(number) => write!(f, "layer {}", number),
            Which::Selection => write!(f, "selection"),
            Which::Alpha(rank) => write!(f, "alpha channel {}", rank),
        }
    }
}

/// Its information chunk.
#[derive(Clone, Copy, Debug)]
pub enum Chunk {
    Layer(LayerChunk),
    Selection(SelectionChunk),
    Alpha(AlphaChunk),
}

impl Chunk {
    /// The rectangles that the planes of a bitmap have.
    pub fn area(&self, bitmap: u32) -> Area {
        match self {
            Chunk::Layer(layer) if bitmap == 2 => layer.mask,
            Chunk::Layer(layer) => layer.image,
            Chunk::Selection(selection) => selection.area,
            Chunk::Alpha(alpha) => alpha.area,
        }
    }

    /// How many channels it has by its own count.
    pub fn channels(&self) -> u16 {
        match self {
            Chunk::Layer(layer) => layer.channels,
            Chunk::Selection(selection) => selection.channels,
            Chunk::Alpha(alpha) => alpha.channels,
        }
    }
}

/// One that was found, and what was found in it.
pub struct Holder {
    pub which: Which,
    pub name: Option<Vec<u8>>,
    pub chunk: Chunk,
    /// The bitmap of each of its channels.
    pub bitmaps: Vec<u32>,
}

impl Holder {
    pub fn is_visible(&self) -> bool {
        matches!(&self.chunk, Chunk::Layer(layer) if layer.visible != 0)
    }

    /// Which masks a layer has, where all its channels were found.
    pub fn masks(&self) -> Option<Vec<&'static str>> {
        if self.bitmaps.len() < usize::from(self.chunk.channels()) {
            return None;
        }
        Some(masks(&self.bitmaps))
    }
}

/// What bitmaps and channels are, by their codes.
const BITMAPS: [&str; 5] = [
    "image",
    "transparency mask",
    "user mask",
    "selection",
    "alpha channel",
];
const CHANNELS: [&str; 4] = ["composite", "red", "green", "blue"];

/// A channel by its codes, and what it lies in.
pub fn channel_words(channel: &Entry, holder: &str) -> String {
    let words =
        |of: &[&'static str], code: u32| of.get(code as usize).copied().unwrap_or("unknown");
    format!(
        "bitmap {} ({}) channel {} ({}) of {}",
        channel.bitmap,
        words(&BITMAPS, channel.bitmap),
        channel.channel,
        words(&CHANNELS, channel.channel),
        holder
    )
}

/// Which masks a layer with these bitmaps has.
pub fn masks(bitmaps: &[u32]) -> Vec<&'static str> {
    let masks = [(1, "transparency"), (2, "user")];
    let has = masks.iter().filter(|(bitmap, _)| bitmaps.contains(bitmap));
    has.map(|(_, mask)| *mask).collect()
}

/// What is shown where a channel is missing that would tell.
pub const NOT_KNOWN: &str = "not known";

#[cfg(test)]
mod tests {
    use super::*;
    use crate::psp::ffi::Rect;

    fn entry(id: u32, layer: u32) -> Entry {
        Entry {
            id,
            layer,
            ..Entry::default()
        }
    }

    /// A border that begins at this left side, and a saved rectangle one further to the right.
    fn area(left: i32) -> Area {
        let [border, saved] = [left, left + 1].map(|left| Rect {
            left,
            ..Rect::default()
        });
        Area { border, saved }
    }

    /// A layer of two channels.
    fn layer() -> Chunk {
        Chunk::Layer(LayerChunk {
            name: [0; 256],
            kind: 0,
            image: area(10),
            opacity: 0,
            blending: 0,
            visible: 0,
            transparency_protected: 0,
            group: 0,
            mask: area(20),
            linked: 0,
            disabled: 0,
            inverted: 0,
            blends: 0,
            ranges: [0; 40],
            bitmaps: 2,
            channels: 2,
        })
    }

    #[test]
    fn layers_and_alpha_channels_count_by_themselves() {
        let which = |id, layer| Which::of(&entry(id, layer)).map(|which| which.to_string());
        assert_eq!(which(4, 3).as_deref(), Some("layer 3"));
        assert_eq!(which(8, 3).as_deref(), Some("alpha channel 3"));
        assert_eq!(which(6, 0).as_deref(), Some("selection"));
        for id in [0, 2, 3, 5, 7, 9, 12] {
            assert_eq!(which(id, 0), None);
        }
        let skipped = Entry {
            skipped: 1,
            ..entry(6, 0)
        };
        assert_eq!(Which::of(&skipped), None);
    }

    #[test]
    fn the_mask_of_a_layer_has_rectangles_of_its_own() {
        let lefts = |chunk: Chunk, bitmap| {
            let area = chunk.area(bitmap);
            [area.border.left, area.saved.left]
        };
        assert_eq!([0, 1].map(|of| lefts(layer(), of)), [[10, 11]; 2]);
        assert_eq!(lefts(layer(), 2), [20, 21]);
        let selection = Chunk::Selection(SelectionChunk {
            area: area(30),
            bitmaps: 1,
            channels: 1,
        });
        assert_eq!(lefts(selection, 3), [30, 31]);
        let alpha = Chunk::Alpha(AlphaChunk {
            name: [0; 256],
            area: area(40),
            bitmaps: 1,
            channels: 1,
        });
        assert_eq!(lefts(alpha, 4), [40, 41]);
    }

    #[test]
    fn masks_are_known_where_every_channel_was_found() {
        let masks = |bitmaps: &[u32]| {
            let layer = Holder {
                which: Which::Layer(0),
                name: None,
                chunk: layer(),
                bitmaps: bitmaps.to_vec(),
            };
            layer.masks()
        };
        assert_eq!(masks(&[]), None);
        assert_eq!(masks(&[1]), None);
        assert_eq!(masks(&[0, 0]), Some(vec![]));
        assert_eq!(masks(&[1, 0]), Some(vec!["transparency"]));
        assert_eq!(masks(&[0, 2]), Some(vec!["user"]));
        assert_eq!(masks(&[2, 0, 1]), Some(vec!["transparency", "user"]));
    }
}
