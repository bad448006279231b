//! The block that a listing judges next: the one behind those that it has passed. What it is, and
//! what it belongs to, is told by its header and by the entries; nothing is judged here a second
//! time.

use crate::fields::{self, Block, Channel, Fields, FILE_HEADER, HEADER};
use crate::holder::Which;
use crate::lines;
use crate::name;
use crate::psp::ffi::{Entry, ImageChunk, Rect};

const IMAGE: u32 = 0;
const CHANNEL: u32 = 5;

/// Bytes of a rectangle; a saved one stands behind its border.
const RECTANGLE: usize = 16;

/// Where a layer's chunk has its count of bitmaps.
const BITMAPS: usize = 371;

/// What a listing has passed, as far as the next block is told by it.
#[derive(Clone, Copy)]
pub struct Passed {
    image: Option<Entry>,
    /// The last layer, selection or alpha channel; none holds another one.
    holder: Option<Entry>,
    /// The channels in that.
    channels: u32,
    layers: u32,
    alphas: u32,
    /// Where the next block begins; none where no entry could stand there.
    next: Option<u32>,
}

impl Passed {
    /// Before the first block.
    pub fn none() -> Passed {
        Passed {
            image: None,
            holder: None,
            channels: 0,
            layers: 0,
            alphas: 0,
            next: Some(FILE_HEADER as u32),
        }
    }

    pub fn add(&mut self, entry: &Entry) {
        self.next = entry.place.checked_add(entry.owned);
        match (Which::of(entry), entry.id) {
            _ if entry.skipped != 0 => {}
            (Some(which), _) => self.enter(which, entry),
            (None, IMAGE) => self.image = Some(*entry),
            (None, CHANNEL) => self.channels += 1,
            _ => {}
        }
    }

    fn enter(&mut self, which: Which, entry: &Entry) {
        self.holder = Some(*entry);
        self.channels = 0;
        match which {
            Which::Layer(_) => self.layers += 1,
            Which::Alpha(_) => self.alphas += 1,
            Which::Selection => {}
        }
    }

    /// Where the next block begins.
    pub fn place(&self) -> Option<usize> {
        usize::try_from(self.next?).ok()
    }

    /// The image, if it is among what was passed.
    pub fn image(&self, input: &[u8]) -> Option<ImageChunk> {
        fields::image(input, self.image.as_ref()?)
    }

    /// The next block; none where the input has no header there.
    pub fn next<'a>(&self, input: &'a [u8]) -> Option<Judged<'a>> {
        let header = self.place()?;
        let block = fields::block(input, header)?;
        let id = block.id.into();
        // A chunk is judged only when all of it is there, so its fields end before the input does.
        let owned = u32::try_from(input.len()).ok()?.checked_sub(self.next?)?;
        let layer = if id == 4 { self.layers } else { self.alphas };
        let own = Entry {
            id,
            place: self.next?,
            owned,
            layer,
            ..Entry::default()
        };
        Some(Judged {
            input,
            header,
            block,
            id,
            own,
            before: *self,
        })
    }
}

pub struct Judged<'a> {
    pub input: &'a [u8],
    /// Where its header begins.
    pub header: usize,
    pub block: Block,
    pub id: u32,
    /// Itself, as an entry that owns all that is there.
    own: Entry,
    before: Passed,
}

impl<'a> Judged<'a> {
    /// The block behind a table.
    pub fn behind(table: &[u32], input: &'a [u8]) -> Option<Judged<'a>> {
        let mut passed = Passed::none();
        lines::entries(table).for_each(|entry| passed.add(&entry));
        passed.next(input)
    }

    /// Where its information chunk begins.
    pub fn chunk(&self) -> usize {
        self.header.saturating_add(HEADER)
    }

    /// The image, or itself where it is one.
    pub fn image(&self) -> Option<ImageChunk> {
        let own = Some(&self.own).filter(|own| own.id == IMAGE);
        fields::image(self.input, own.or(self.before.image.as_ref())?)
    }

    /// The layer, selection or alpha channel that it lies in, or itself where it is one.
    pub fn which(&self) -> Option<Which> {
        self.nearest().and_then(Which::of)
    }

    /// The border of a bitmap's planes in that.
    pub fn border(&self, bitmap: u32) -> Option<Rect> {
        self.holder(self.border_at(bitmap)?)?.rectangle()
    }

    /// The saved rectangle of a bitmap's planes in that.
    pub fn saved(&self, bitmap: u32) -> Option<Rect> {
        self.holder(self.border_at(bitmap)? + RECTANGLE)?
            .rectangle()
    }

    /// How many bitmaps a layer has by its own count.
    pub fn bitmaps(&self) -> Option<u16> {
        self.holder(BITMAPS)?.word()
    }

    /// Itself, as a channel.
    pub fn channel(&self) -> Option<Channel> {
        fields::channel(self.input, self.header)
    }

    /// What it lies in, or is, by its number and its name where it has them.
    pub fn holder_words(&self) -> Option<String> {
        let which = self.which()?;
        Some(match which {
            Which::Selection => which.to_string(),
            Which::Layer(_) | Which::Alpha(_) => {
                let name = self.holder(0)?.name()?;
                format!("{} ({})", which, name::quoted(name))
            }
        })
    }

    /// What it lies in, and which of the channels there it is, from 0 in file order.
    pub fn channel_words(&self) -> Option<String> {
        let number = self.before.channels;
        Some(format!("{}, channel {}", self.holder_words()?, number))
    }

    /// Where the border stands in the chunk of what it lies in, or its own.
    fn border_at(&self, bitmap: u32) -> Option<usize> {
        Some(match self.which()? {
            Which::Layer(_) if bitmap == 2 => 294,
            Which::Layer(_) => 257,
            Which::Selection => 0,
            Which::Alpha(_) => 256,
        })
    }

    /// The fields from an offset of that chunk on.
    fn holder(&self, offset: usize) -> Option<Fields<'a>> {
        let place = usize::try_from(self.nearest()?.place).ok()?;
        Fields::at(self.input, place.checked_add(HEADER + offset)?)
    }

    fn nearest(&self) -> Option<&Entry> {
        let own = Some(&self.own).filter(|own| Which::of(own).is_some());
        own.or(self.before.holder.as_ref())
    }
}
