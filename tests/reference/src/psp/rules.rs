//! The rules of one place: the file header, a block, the end of a parent and that
//! of the input. They remember what has passed; the place itself, the ends of the
//! open parents and the entries are kept by whoever walks.

use super::chunks::{
    AlphaBankChunk, AlphaChunk, BlockHeader, ChannelChunk, FileHeader, ImageChunk, LayerChunk,
    PaletteChunk, SelectionChunk, MARK, SIGNATURE,
};
use super::listing::{
    Entry, ALPHA_BANK, ALPHA_CHANNEL, BANK, CHANNEL, FIRST_UNKNOWN, IMAGE, LAYER, PALETTE,
    SELECTION, THUMBNAIL,
};
use super::parents::{Parent, Plane};
use super::{number, part, INPUT_LIMIT};

pub struct Refusal {
    pub number: u32,
    pub place: u64,
}

pub fn refuse<T>(number: u32, place: u64) -> Result<T, Refusal> {
    Err(Refusal { number, place })
}

/// Answer 8 gives the place of the field, whose offset in its chunk this is.
fn permit(chunk_start: u64, wrong_field: Option<u64>) -> Result<(), Refusal> {
    match wrong_field {
        Some(offset) => refuse(number::VALUE_NOT_PERMITTED, chunk_start + offset),
        None => Ok(()),
    }
}

/// A block whose last unit has passed. The next unit starts behind the bytes that
/// its entry owns; where the block is entered that is inside it, and it ends at `end`.
pub struct Step {
    pub entry: Entry,
    pub end: Option<u64>,
}

/// What the place rules make of a block.
#[derive(Clone, Copy, PartialEq, Eq)]
pub enum Treatment {
    Image,
    Palette,
    Bank,
    Layer,
    Channel,
    Selection,
    AlphaBank,
    Alpha,
    Skip,
}

impl Treatment {
    /// Whether the header's lengths are those of the kind.
    pub fn has_lengths(self, initial: u32, total: u32) -> bool {
        match self {
            Treatment::Image => initial == 38 && total == 38,
            Treatment::Palette => initial == 4 && total >= 4,
            Treatment::Bank => initial == 0,
            Treatment::Layer => (initial == 375 || initial == 0) && total >= 375,
            Treatment::Channel => initial == 12 && total >= 12,
            Treatment::Selection => initial == 36 && total >= 36,
            Treatment::AlphaBank => initial == 2 && total >= 2,
            Treatment::Alpha => initial == 292 && total >= 292,
            Treatment::Skip => true,
        }
    }
}

/// What is remembered on the way to a place.
pub struct Rules<'a> {
    input: &'a [u8],
    image: Option<ImageChunk>,
    /// The known ids that have stood at the main level.
    passed: [bool; FIRST_UNKNOWN as usize],
    /// Each inside the one before it.
    open: Vec<Parent>,
}

impl<'a> Rules<'a> {
    pub fn new(input: &'a [u8]) -> Rules<'a> {
        Rules {
            input,
            image: None,
            passed: [false; FIRST_UNKNOWN as usize],
            open: Vec::new(),
        }
    }

    /// Whether the input stops at a place.
    pub fn is_end(&self, place: u64) -> bool {
        place == self.input.len() as u64
    }

    /// A unit, judged only if all of it is present.
    fn unit(&self, start: u64, length: u64) -> Result<&'a [u8], Refusal> {
        match part(self.input, start, length) {
            Some(unit) => Ok(unit),
            None => refuse(number::ENDS_TOO_SOON, start),
        }
    }

    /// The place of the first block. Before anything is looked at, the input's length
    /// is held to its limit.
    pub fn file_header(&self) -> Result<u64, Refusal> {
        if self.input.len() as u64 > INPUT_LIMIT {
            return refuse(number::INPUT_OVER_LIMIT, 0);
        }
        let header = FileHeader::decode(self.unit(0, FileHeader::SIZE)?);
        if header.signature != SIGNATURE {
            return refuse(number::SIGNATURE_WRONG, 0);
        }
        if header.major != 3 || header.minor != 0 {
            return refuse(number::VERSION_NOT_3_0, 32);
        }
        Ok(FileHeader::SIZE)
    }

    /// The innermost parent ends at a place.
    pub fn close_parent(&mut self, place: u64) -> Result<(), Refusal> {
        let colours = self.image.unwrap_or_default().colour_channels();
        match self.open.pop() {
            Some(parent) if !parent.is_complete(colours) => refuse(number::PARTS_MISSING, place),
            _ => Ok(()),
        }
    }

    /// Whether a block of that known id has stood at the main level.
    fn has_passed(&self, id: u16) -> bool {
        self.passed[usize::from(id)]
    }

    /// The input stops at a main boundary. A bank that was passed is complete
    /// there: it was judged at its own end. Below depth 24 a palette that was
    /// passed is listed.
    pub fn end_of_input(&self, place: u64) -> Result<(), Refusal> {
        let palette_due = match &self.image {
            Some(image) => image.is_paletted() && !self.has_passed(PALETTE),
            None => true,
        };
        if self.has_passed(BANK) && !palette_due {
            Ok(())
        } else {
            refuse(number::ENDS_TOO_SOON, place)
        }
    }

    /// The place rules; none is "out of place".
    fn treatment(&self, id: u16) -> Option<Treatment> {
        let image = match &self.image {
            Some(image) => image,
            // The first block: nothing but the image, unknown ids included.
            None if id == IMAGE => return Some(Treatment::Image),
            None => return None,
        };
        if id >= FIRST_UNKNOWN {
            return Some(Treatment::Skip);
        }
        match self.open.last() {
            None => self.main_treatment(id, image),
            Some(parent) if parent.part() != id => None,
            Some(_) => Some(match id {
                LAYER => Treatment::Layer,
                ALPHA_CHANNEL => Treatment::Alpha,
                _ => Treatment::Channel,
            }),
        }
    }

    /// A known id at the main level, behind the image.
    fn main_treatment(&self, id: u16, image: &ImageChunk) -> Option<Treatment> {
        match id {
            IMAGE | LAYER | CHANNEL | ALPHA_CHANNEL => None,
            PALETTE | BANK | SELECTION | ALPHA_BANK if self.has_passed(id) => None,
            PALETTE if image.depth == 24 => Some(Treatment::Skip),
            PALETTE => Some(Treatment::Palette),
            BANK => Some(Treatment::Bank),
            SELECTION => Some(Treatment::Selection),
            ALPHA_BANK => Some(Treatment::AlphaBank),
            THUMBNAIL if self.has_passed(BANK) => None,
            // Creator, thumbnail, extended, tube.
            _ => Some(Treatment::Skip),
        }
    }

    /// One layer, alpha channel or channel more than announced.
    fn is_surplus(&self, treatment: Treatment) -> bool {
        match treatment {
            Treatment::Layer | Treatment::Alpha | Treatment::Channel => {
                self.open.last().map_or(false, Parent::is_full)
            }
            _ => false,
        }
    }

    /// The block at a place: its header, in the stated order, then the rest by its
    /// kind. All that is judged of it but the table's room.
    pub fn block(&mut self, place: u64, parent_end: Option<u64>) -> Result<Step, Refusal> {
        // Totals past the parent's end are refused, so no walk steps over that end.
        let left = parent_end.map_or(u64::MAX, |end| end.saturating_sub(place));
        // Known from the parent's header alone: judged before the presence of
        // these bytes.
        if left < BlockHeader::SIZE {
            return refuse(number::LENGTH_DOES_NOT_FIT, place);
        }
        let header = BlockHeader::decode(self.unit(place, BlockHeader::SIZE)?);
        if header.mark != MARK {
            return refuse(number::MARK_WRONG, place);
        }
        let treatment = match self.treatment(header.id) {
            Some(treatment) => treatment,
            None => return refuse(number::OUT_OF_PLACE, place),
        };
        if self.is_surplus(treatment) {
            return refuse(number::NOT_EXPECTED, place);
        }
        let BlockHeader { initial, total, .. } = header;
        let whole = BlockHeader::SIZE + u64::from(total);
        if !treatment.has_lengths(initial, total) || whole > left {
            return refuse(number::LENGTH_DOES_NOT_FIT, place);
        }
        let end = place + whole;
        match treatment {
            Treatment::Image => self.image(place),
            Treatment::Palette => self.palette(place, total),
            Treatment::Bank => self.bank(place, end),
            Treatment::Layer => self.layer(place, end),
            Treatment::Channel => self.channel(place, total),
            Treatment::Selection => self.selection(place, end),
            Treatment::AlphaBank => self.alpha_bank(place, end),
            Treatment::Alpha => self.alpha(place, end),
            Treatment::Skip => self.skip(place, header),
        }
    }

    /// An entry whose last unit has passed, with the bytes that it owns.
    fn pass(&mut self, entry: Entry, place: u64, owned: u64) -> Step {
        if self.open.is_empty() {
            if let Some(passed) = self.passed.get_mut(entry.id as usize) {
                *passed = true;
            }
        }
        // All of it lies inside the input, so the numbers fit in 32 bits.
        let entry = Entry {
            level: self.open.len() as u32,
            header_place: place as u32,
            bytes_owned: owned as u32,
            ..entry
        };
        Step { entry, end: None }
    }

    fn image(&mut self, place: u64) -> Result<Step, Refusal> {
        let chunk_start = place + BlockHeader::SIZE;
        let chunk = ImageChunk::decode(self.unit(chunk_start, ImageChunk::SIZE)?);
        permit(chunk_start, chunk.wrong_field())?;
        if chunk.compression == 2 {
            return refuse(number::COMPRESSION_2, chunk_start);
        }
        let entry = Entry {
            id: u32::from(IMAGE),
            ..Entry::default()
        };
        self.image = Some(chunk);
        Ok(self.pass(entry, place, BlockHeader::SIZE + ImageChunk::SIZE))
    }

    fn palette(&mut self, place: u64, total: u32) -> Result<Step, Refusal> {
        let chunk_start = place + BlockHeader::SIZE;
        let chunk = PaletteChunk::decode(self.unit(chunk_start, PaletteChunk::SIZE)?);
        let depth = self.image.unwrap_or_default().depth;
        permit(chunk_start, chunk.wrong_field(depth))?;
        if u64::from(total) != PaletteChunk::SIZE + chunk.entries_length() {
            return refuse(number::LENGTH_DOES_NOT_FIT, place);
        }
        let content_start = chunk_start + PaletteChunk::SIZE;
        self.unit(content_start, chunk.entries_length())?;
        let entry = Entry {
            id: u32::from(PALETTE),
            content_start: content_start as u32,
            stored_length: chunk.entries_length() as u32,
            ..Entry::default()
        };
        Ok(self.pass(entry, place, BlockHeader::SIZE + u64::from(total)))
    }

    /// A parent, whose own bytes are its header and its chunk; then come the blocks
    /// inside it. Its layer number is its rank among the layers of the bank or the
    /// alpha channels of the alpha bank.
    fn enter(&mut self, id: u16, place: u64, chunk: u64, end: u64, mut parent: Parent) -> Step {
        let rank = self.open.last().map_or(0, |outer| outer.passed);
        let entry = Entry {
            id: u32::from(id),
            layer_number: u32::from(rank),
            ..Entry::default()
        };
        let step = self.pass(entry, place, BlockHeader::SIZE + chunk);
        if let Some(outer) = self.open.last_mut() {
            outer.passed += 1;
        }
        parent.rank = rank;
        self.open.push(parent);
        Step {
            end: Some(end),
            ..step
        }
    }

    /// The bank's only unit is its header.
    fn bank(&mut self, place: u64, end: u64) -> Result<Step, Refusal> {
        let bank = Parent::bank(&self.image.unwrap_or_default());
        Ok(self.enter(BANK, place, 0, end, bank))
    }

    fn layer(&mut self, place: u64, end: u64) -> Result<Step, Refusal> {
        let chunk_start = place + BlockHeader::SIZE;
        let chunk = LayerChunk::decode(self.unit(chunk_start, LayerChunk::SIZE)?);
        let colours = self.image.unwrap_or_default().colour_channels();
        permit(chunk_start, chunk.wrong_field(colours))?;
        let layer = Parent::layer(chunk);
        Ok(self.enter(LAYER, place, LayerChunk::SIZE, end, layer))
    }

    fn selection(&mut self, place: u64, end: u64) -> Result<Step, Refusal> {
        let chunk_start = place + BlockHeader::SIZE;
        let chunk = SelectionChunk::decode(self.unit(chunk_start, SelectionChunk::SIZE)?);
        permit(chunk_start, chunk.wrong_field())?;
        let selection = Parent::selection(chunk);
        Ok(self.enter(SELECTION, place, SelectionChunk::SIZE, end, selection))
    }

    /// Its count is not judged.
    fn alpha_bank(&mut self, place: u64, end: u64) -> Result<Step, Refusal> {
        let chunk_start = place + BlockHeader::SIZE;
        let chunk = AlphaBankChunk::decode(self.unit(chunk_start, AlphaBankChunk::SIZE)?);
        let bank = Parent::alpha_bank(chunk);
        Ok(self.enter(ALPHA_BANK, place, AlphaBankChunk::SIZE, end, bank))
    }

    fn alpha(&mut self, place: u64, end: u64) -> Result<Step, Refusal> {
        let chunk_start = place + BlockHeader::SIZE;
        let chunk = AlphaChunk::decode(self.unit(chunk_start, AlphaChunk::SIZE)?);
        permit(chunk_start, chunk.wrong_field())?;
        let alpha = Parent::alpha(chunk);
        Ok(self.enter(ALPHA_CHANNEL, place, AlphaChunk::SIZE, end, alpha))
    }

    /// Of a channel that the innermost parent expects the parent's rank, and the plane.
    fn expected(&self, chunk: &ChannelChunk) -> Option<(u16, Plane)> {
        let image = self.image.unwrap_or_default();
        let parent = self.open.last()?;
        let is_expected = parent.expects(chunk, &image);
        is_expected.then(|| (parent.rank, parent.plane(chunk, &image)))
    }

    fn channel(&mut self, place: u64, total: u32) -> Result<Step, Refusal> {
        let chunk_start = place + BlockHeader::SIZE;
        let chunk = ChannelChunk::decode(self.unit(chunk_start, ChannelChunk::SIZE)?);
        let stored = u64::from(chunk.stored);
        if u64::from(total) != ChannelChunk::SIZE + stored {
            return refuse(number::LENGTH_DOES_NOT_FIT, place);
        }
        permit(chunk_start, chunk.wrong_code())?;
        let (rank, plane) = match self.expected(&chunk) {
            Some(expected) => expected,
            None => return refuse(number::NOT_EXPECTED, place),
        };
        let plane_length = chunk_start + ChannelChunk::PLANE_LENGTH_PLACE;
        let row = match plane.row(u64::from(chunk.plane)) {
            Some(row) => row,
            None => return refuse(number::VALUE_NOT_PERMITTED, plane_length),
        };
        let content_start = chunk_start + ChannelChunk::SIZE;
        self.unit(content_start, stored)?;
        if let Some(parent) = self.open.last_mut() {
            parent.pass_channel(&chunk);
        }
        let entry = Entry {
            id: u32::from(CHANNEL),
            layer_number: u32::from(rank),
            bitmap: u32::from(chunk.bitmap),
            channel: u32::from(chunk.channel),
            content_start: content_start as u32,
            stored_length: chunk.stored,
            width: plane.width as u32,
            height: plane.height as u32,
            plane_length: chunk.plane,
            row: row as u32,
            ..Entry::default()
        };
        let owned = BlockHeader::SIZE + ChannelChunk::SIZE + stored;
        Ok(self.pass(entry, place, owned))
    }

    fn skip(&mut self, place: u64, header: BlockHeader) -> Result<Step, Refusal> {
        let data_start = place + BlockHeader::SIZE;
        let total = u64::from(header.total);
        self.unit(data_start, total)?;
        let entry = Entry {
            id: u32::from(header.id),
            skipped: 1,
            content_start: data_start as u32,
            stored_length: header.total,
            ..Entry::default()
        };
        Ok(self.pass(entry, place, BlockHeader::SIZE + total))
    }
}
