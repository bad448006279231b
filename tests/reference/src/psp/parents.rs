//! What holds blocks: the bank and its layers, the selection, the alpha bank and
//! its alpha channels. Each holds blocks of one known id, as many as announced,
//! and says which channels it expects and what their planes are.

use super::chunks::{
    AlphaBankChunk, AlphaChunk, ChannelChunk, ImageChunk, LayerChunk, SelectionChunk,
};
use super::listing::{ALPHA_CHANNEL, CHANNEL, LAYER};
use super::rectangle::{rows, Rectangle};

/// A parent whose end the walk has not reached.
pub struct Parent {
    kind: Kind,
    /// The layer number of its own entry, and of its channels'.
    pub rank: u16,
    /// Layers, alpha channels or channels: announced, and passed so far.
    announced: u16,
    pub passed: u16,
}

/// The kinds, with what their channels are judged by.
enum Kind {
    Bank,
    Layer(Layer),
    Selection(SelectionChunk),
    AlphaBank,
    Alpha(SelectionChunk),
}

struct Layer {
    chunk: LayerChunk,
    colours: u16,
    /// Bitmaps 0 to 2 by channels 0 to 3.
    seen: [[bool; 4]; 3],
}

impl Parent {
    fn new(kind: Kind, announced: u16) -> Parent {
        Parent {
            kind,
            rank: 0,
            announced,
            passed: 0,
        }
    }

    pub fn bank(image: &ImageChunk) -> Parent {
        Parent::new(Kind::Bank, image.layer_count)
    }

    pub fn layer(chunk: LayerChunk) -> Parent {
        let layer = Layer {
            chunk,
            colours: 0,
            seen: [[false; 4]; 3],
        };
        Parent::new(Kind::Layer(layer), chunk.channels)
    }

    pub fn selection(chunk: SelectionChunk) -> Parent {
        Parent::new(Kind::Selection(chunk), chunk.channels)
    }

    pub fn alpha_bank(chunk: AlphaBankChunk) -> Parent {
        Parent::new(Kind::AlphaBank, chunk.count)
    }

    pub fn alpha(chunk: AlphaChunk) -> Parent {
        Parent::new(Kind::Alpha(chunk.area), chunk.area.channels)
    }

    /// The only known id of a block inside.
    pub fn part(&self) -> u16 {
        match self.kind {
            Kind::Bank => LAYER,
            Kind::AlphaBank => ALPHA_CHANNEL,
            Kind::Layer(_) | Kind::Selection(_) | Kind::Alpha(_) => CHANNEL,
        }
    }

    /// Whether one more of them would be one too many.
    pub fn is_full(&self) -> bool {
        self.passed >= self.announced
    }

    /// Whether all that was announced has passed, and in a layer so many colours
    /// among it.
    pub fn is_complete(&self, colours: u16) -> bool {
        let has_colours = match &self.kind {
            Kind::Layer(layer) => layer.colours == colours,
            _ => true,
        };
        self.passed == self.announced && has_colours
    }

    /// Whether it may have this channel and has not had it yet. The only channel
    /// of a selection or an alpha channel cannot come twice: the second is one
    /// too many before that.
    pub fn expects(&self, chunk: &ChannelChunk, image: &ImageChunk) -> bool {
        let codes = (chunk.bitmap, chunk.channel);
        match &self.kind {
            Kind::Layer(layer) => layer.expects(chunk, image),
            Kind::Selection(_) => codes == (3, 0),
            Kind::Alpha(_) => codes == (4, 0),
            Kind::Bank | Kind::AlphaBank => false,
        }
    }

    /// The plane of an expected channel. The parent's chunk has been judged:
    /// sides are 0 to 30,000.
    pub fn plane(&self, chunk: &ChannelChunk, image: &ImageChunk) -> Plane {
        let saved = match &self.kind {
            Kind::Layer(layer) if chunk.bitmap == 2 => layer.chunk.mask_saved,
            Kind::Layer(layer) => layer.chunk.image_saved,
            Kind::Selection(area) | Kind::Alpha(area) => area.saved,
            Kind::Bank | Kind::AlphaBank => Rectangle::default(),
        };
        let bits = match chunk.bitmap {
            0 => image.colour_bits(),
            _ => 8,
        };
        Plane {
            width: saved.width().unsigned_abs(),
            height: saved.height().unsigned_abs(),
            bits,
        }
    }

    pub fn pass_channel(&mut self, chunk: &ChannelChunk) {
        self.passed += 1;
        if let Kind::Layer(layer) = &mut self.kind {
            layer.colours += u16::from(chunk.bitmap == 0);
            if let Some(seen) = seen_mark(chunk, &mut layer.seen) {
                *seen = true;
            }
        }
    }
}

impl Layer {
    /// The layer's bitmap count takes no part.
    fn expects(&self, chunk: &ChannelChunk, image: &ImageChunk) -> bool {
        let right_kind = match (chunk.bitmap, chunk.channel) {
            (0, 1) | (0, 2) | (0, 3) => image.depth == 24,
            (0, 0) => image.depth != 24,
            (1, 0) | (2, 0) => true,
            _ => false,
        };
        let mut seen = self.seen;
        right_kind && seen_mark(chunk, &mut seen).map_or(false, |seen| !*seen)
    }
}

fn seen_mark<'a>(chunk: &ChannelChunk, seen: &'a mut [[bool; 4]; 3]) -> Option<&'a mut bool> {
    seen.get_mut(usize::from(chunk.bitmap))?
        .get_mut(usize::from(chunk.channel))
}

/// What a channel's parent says of its plane.
pub struct Plane {
    pub width: u64,
    pub height: u64,
    bits: u64,
}

impl Plane {
    /// The row of a plane of that length: the first of its forms that gives it.
    /// Where they give the same, as they do without any height, it is padded.
    pub fn row(&self, length: u64) -> Option<u64> {
        rows(self.width, self.bits).find(|row| row * self.height == length)
    }
}
