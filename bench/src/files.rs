//! The files that are listed and read. Each is a good one.

/// Bytes of a block's header.
pub const HEADER: usize = 14;

/// Entries of a grey picture: image, bank, layer, channel.
pub const GREY_ENTRIES: usize = 4;

/// Where a file has its empty blocks. They have an unknown id, but for creators.
#[derive(Clone, Copy, Debug, PartialEq, Eq)]
pub enum Among {
    MainBeforeBank,
    MainAfterBank,
    Bank,
    Layer,
    /// Creator blocks, after the bank.
    Creators,
}

const CREATOR: u16 = 1;
const UNKNOWN: u16 = 12;

/// A grey picture of one layer and one channel, whose content is stored in that form.
pub fn grey(side: u32, compression: u16, content: &[u8]) -> Vec<u8> {
    let inside = channel(0, 0, plane_length(side), content);
    let bank = block(3, 0, &[&layer(side, 1, 1, &inside)]);
    [file_header(), image(side, compression, 8, 1), bank].concat()
}

/// A picture of so many layers at depth 24, each with three colours and two masks of equal sides,
/// which are stored raw.
pub fn layered(layers: u16, side: u32) -> Vec<u8> {
    let plane = vec![0; plane_length(side) as usize];
    let channels = [(0, 1), (0, 2), (0, 3), (1, 0), (2, 0)]
        .map(|(bitmap, code)| channel(bitmap, code, plane_length(side), &plane))
        .concat();
    let layer = layer(side, 3, 5, &channels);
    let bank = block(3, 0, &[&layer.repeat(usize::from(layers))]);
    [file_header(), image(side, 0, 24, layers), bank].concat()
}

/// Blocks of an unknown id and no data.
pub fn empty_blocks(count: usize) -> Vec<u8> {
    block(UNKNOWN, 0, &[]).repeat(count)
}

/// A grey picture of one pixel, with blocks without data, as many as fit the length. Gives their
/// number too.
pub fn with_empty_blocks(among: Among, length: usize) -> (Vec<u8>, usize) {
    let count = (length - grey(1, 0, &[0; 4]).len()) / HEADER;
    let empty = |here| match here == among {
        true if here == Among::Creators => block(CREATOR, 0, &[]).repeat(count),
        true => empty_blocks(count),
        false => Vec::new(),
    };
    let pixel = channel(0, 0, plane_length(1), &[0; 4]);
    let layer = layer(1, 1, 1, &[pixel, empty(Among::Layer)].concat());
    let bank = block(3, 0, &[&layer, &empty(Among::Bank)]);
    let before = empty(Among::MainBeforeBank);
    let after = [empty(Among::MainAfterBank), empty(Among::Creators)].concat();
    let file = [file_header(), image(1, 0, 8, 1), before, bank, after].concat();
    (file, count)
}

/// Bytes of an 8-bit plane with equal sides and padded rows.
pub fn plane_length(side: u32) -> u32 {
    (side + 3) / 4 * 4 * side
}

fn file_header() -> Vec<u8> {
    let mut header = b"Paint Shop Pro Image File\n\x1a".to_vec();
    header.resize(32, 0);
    header.extend([3, 0, 0, 0]);
    header
}

fn block(id: u16, initial: u32, parts: &[&[u8]]) -> Vec<u8> {
    let total: usize = parts.iter().map(|part| part.len()).sum();
    let mut block = vec![0x7E, 0x42, 0x4B, 0x00];
    block.extend(id.to_le_bytes());
    block.extend(initial.to_le_bytes());
    block.extend((total as u32).to_le_bytes());
    for part in parts {
        block.extend_from_slice(part);
    }
    block
}

/// Grey below depth 24.
fn image(side: u32, compression: u16, depth: u16, layers: u16) -> Vec<u8> {
    let mut chunk = Vec::new();
    chunk.extend(side.to_le_bytes());
    chunk.extend(side.to_le_bytes());
    // Resolution and its metric, unknown.
    chunk.extend([0; 9]);
    chunk.extend(compression.to_le_bytes());
    chunk.extend(depth.to_le_bytes());
    chunk.extend(1u16.to_le_bytes());
    chunk.extend((1u32 << depth).to_le_bytes());
    chunk.push(u8::from(depth == 8));
    // Total size and active layer, which no rule fixes.
    chunk.extend([0; 8]);
    chunk.extend(layers.to_le_bytes());
    block(0, 38, &[&chunk])
}

/// All four rectangles are the whole image.
fn layer(side: u32, bitmaps: u16, channels: u16, inside: &[u8]) -> Vec<u8> {
    let rectangle = [0, 0, side, side].map(u32::to_le_bytes).concat();
    // Name and type.
    let mut chunk = vec![0; 257];
    chunk.extend(rectangle.repeat(2));
    // Opacity, blending, visible, protected, group.
    chunk.extend([0; 5]);
    chunk.extend(rectangle.repeat(2));
    // Linked, disabled, inverted; the blend ranges and their count.
    chunk.extend([0; 45]);
    chunk.extend(bitmaps.to_le_bytes());
    chunk.extend(channels.to_le_bytes());
    block(4, 375, &[&chunk, inside])
}

fn channel(bitmap: u16, code: u16, plane: u32, content: &[u8]) -> Vec<u8> {
    let mut chunk = Vec::new();
    chunk.extend((content.len() as u32).to_le_bytes());
    chunk.extend(plane.to_le_bytes());
    chunk.extend(bitmap.to_le_bytes());
    chunk.extend(code.to_le_bytes());
    block(5, 12, &[&chunk, content])
}
