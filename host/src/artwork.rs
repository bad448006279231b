//! Artwork in memory, with the blocks that its listing has: of a refused file those before the
//! refusal's place. It is listed once, and what it shows is looked up where the listing has it.

use crate::accepted::{self, Input};
use crate::blocks::{Blocks, Holding};
use crate::failure::Failure;
use crate::fields;
use crate::holder::{Chunk, Holder, Which};
use crate::identity::Identity;
use crate::psp;
use crate::psp::ffi::{ImageChunk, ACCEPTED};

pub struct Artwork {
    pub bytes: Vec<u8>,
    pub identity: Option<Identity>,
    blocks: Blocks,
}

impl Artwork {
    /// An accepted file, or else its refusal.
    pub fn accepted(input: Input) -> Result<Artwork, Failure> {
        let (answer, table) = accepted::list(&input.bytes)?;
        match answer.number {
            ACCEPTED => Ok(Artwork::listed(input, &table)),
            _ => Err(input.refused(&answer, &table)),
        }
    }

    /// An input and the table of its listing, accepted or refused.
    pub fn listed(input: Input, table: &[u32]) -> Artwork {
        Artwork {
            blocks: Blocks::of(table),
            bytes: input.bytes,
            identity: input.identity,
        }
    }

    /// The image, which every accepted file has.
    pub fn image(&self) -> Option<ImageChunk> {
        fields::image(&self.bytes, self.blocks.image()?)
    }

    /// Layers, selection and alpha channels, in file order.
    pub fn holdings(&self) -> impl Iterator<Item = Holding<'_>> + '_ {
        self.blocks.holdings()
    }

    /// Which of them there are.
    pub fn there(&self) -> impl Iterator<Item = Which> + '_ {
        self.holdings().map(|holding| holding.which)
    }

    /// Those that are asked for, with all that the library shows of them.
    pub fn holders_of(&self, is_asked: impl Fn(Which) -> bool) -> Result<Vec<Holder>, Failure> {
        let asked = self.holdings().filter(|holding| is_asked(holding.which));
        let holder = |holding: Holding| {
            let bitmaps = holding.channels.iter().map(|channel| channel.bitmap);
            Ok(Holder {
                which: holding.which,
                name: self.name(&holding)?,
                chunk: self.chunk(&holding)?,
                bitmaps: bitmaps.collect(),
            })
        };
        asked.map(holder).collect()
    }

    /// The name; a selection has none. By the proof it stands where the listing has its block, and
    /// so does the chunk.
    fn name(&self, holding: &Holding) -> Result<Option<Vec<u8>>, Failure> {
        let place = holding.entry.place as usize;
        let view = match holding.which {
            Which::Layer(_) => psp::name_at(&self.bytes, place),
            Which::Alpha(_) => psp::alpha_name_at(&self.bytes, place),
            Which::Selection => return Ok(None),
        };
        accepted::good(view.number, Some(view.bytes.to_vec()))
    }

    pub fn chunk(&self, holding: &Holding) -> Result<Chunk, Failure> {
        let place = holding.entry.place as usize;
        let (number, chunk) = match holding.which {
            Which::Layer(_) => {
                let facts = psp::layer_at(&self.bytes, place);
                (facts.number, Chunk::Layer(facts.layer))
            }
            Which::Selection => {
                let facts = psp::selection_at(&self.bytes, place);
                (facts.number, Chunk::Selection(facts.selection))
            }
            Which::Alpha(_) => {
                let facts = psp::alpha_at(&self.bytes, place);
                (facts.number, Chunk::Alpha(facts.alpha))
            }
        };
        accepted::good(number, chunk)
    }
}
