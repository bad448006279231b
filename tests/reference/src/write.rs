//! A writer of test files: a picture is described block by block, turned into
//! a tree of blocks, and the tree into bytes. Damage is done on whichever of
//! the three shows it best, so no field is judged here: a description may be
//! as wrong as a test wants.

mod areas;

pub use areas::{Alpha, AlphaBank, Area, InAlphaBank, ALPHA, SELECTION};

use std::ops::RangeInclusive;

use crate::psp::rectangle::Rectangle;

pub const SIGNATURE_TEXT: &[u8] = b"Paint Shop Pro Image File\n\x1a";

/// A block as written: its header's fields, its own bytes (the chunk and what
/// follows it), then the blocks inside it.
#[derive(Clone, Debug)]
pub struct Node {
    pub mark: [u8; 4],
    pub id: u16,
    pub initial: u32,
    /// None writes the true length.
    pub total: Option<u32>,
    pub data: Vec<u8>,
    pub children: Vec<Node>,
}

impl Node {
    pub fn new(id: u16, initial: u32, data: Vec<u8>) -> Node {
        Node {
            mark: *b"~BK\0",
            id,
            initial,
            total: None,
            data,
            children: Vec::new(),
        }
    }

    pub fn true_total(&self) -> u32 {
        let inside: u32 = self
            .children
            .iter()
            .map(|child| 14 + child.true_total())
            .sum();
        self.data.len() as u32 + inside
    }

    fn write(&self, file: &mut Written) {
        file.headers.push(HeaderPlace {
            place: file.bytes.len(),
            id: self.id,
        });
        file.bytes.extend_from_slice(&self.mark);
        file.bytes.extend_from_slice(&self.id.to_le_bytes());
        file.bytes.extend_from_slice(&self.initial.to_le_bytes());
        let total = self.total.unwrap_or_else(|| self.true_total());
        file.bytes.extend_from_slice(&total.to_le_bytes());
        file.bytes.extend_from_slice(&self.data);
        for child in &self.children {
            child.write(file);
        }
    }
}

/// Where a header was written.
#[derive(Clone, Copy, Debug)]
pub struct HeaderPlace {
    pub place: usize,
    pub id: u16,
}

#[derive(Default)]
pub struct Written {
    pub bytes: Vec<u8>,
    pub headers: Vec<HeaderPlace>,
}

/// A whole file: its header's bytes and its main blocks.
#[derive(Clone, Debug)]
pub struct Tree {
    pub header: Vec<u8>,
    pub blocks: Vec<Node>,
}

impl Tree {
    pub fn written(&self) -> Written {
        let mut file = Written {
            bytes: self.header.clone(),
            headers: Vec::new(),
        };
        for block in &self.blocks {
            block.write(&mut file);
        }
        file
    }

    pub fn bytes(&self) -> Vec<u8> {
        self.written().bytes
    }

    /// The way to every block: its index among the main blocks, then among
    /// the blocks inside that one, and so on; in file order.
    pub fn paths(&self) -> Vec<Vec<usize>> {
        fn collect(blocks: &[Node], above: &[usize], paths: &mut Vec<Vec<usize>>) {
            for (index, block) in blocks.iter().enumerate() {
                let mut path = above.to_vec();
                path.push(index);
                paths.push(path.clone());
                collect(&block.children, &path, paths);
            }
        }
        let mut paths = Vec::new();
        collect(&self.blocks, &[], &mut paths);
        paths
    }

    /// The blocks inside the block at a path; the main ones for the empty
    /// path, or if the path has been damaged away.
    pub fn inside(&mut self, path: &[usize]) -> &mut Vec<Node> {
        let exists = self.node(path).is_some();
        let mut blocks = &mut self.blocks;
        if exists {
            for &index in path {
                blocks = &mut blocks[index].children;
            }
        }
        blocks
    }

    pub fn node(&mut self, path: &[usize]) -> Option<&mut Node> {
        let (last, above) = path.split_last()?;
        let mut blocks = &mut self.blocks;
        for &index in above {
            blocks = &mut blocks.get_mut(index)?.children;
        }
        blocks.get_mut(*last)
    }
}

pub fn file_header(major: u16, minor: u16) -> Vec<u8> {
    let mut header = SIGNATURE_TEXT.to_vec();
    header.resize(32, 0);
    header.extend_from_slice(&major.to_le_bytes());
    header.extend_from_slice(&minor.to_le_bytes());
    header
}

/// The image chunk's fields as written.
#[derive(Clone, Debug)]
pub struct Image {
    pub width: u32,
    pub height: u32,
    pub resolution: u64,
    pub metric: u8,
    pub compression: u16,
    pub depth: u16,
    pub planes: u16,
    pub colours: u32,
    pub grey: u8,
    pub total_size: u32,
    pub active_layer: u32,
    pub layer_count: u16,
}

impl Image {
    /// A good image without resolution; 1 by 1, one layer, raw.
    pub fn new(depth: u16, grey: bool) -> Image {
        Image {
            width: 1,
            height: 1,
            resolution: 0,
            metric: 0,
            compression: 0,
            depth,
            planes: 1,
            colours: 1u32.checked_shl(u32::from(depth)).unwrap_or(0),
            grey: u8::from(grey),
            total_size: 0,
            active_layer: 0,
            layer_count: 1,
        }
    }

    /// The codes of a layer's colour channels.
    pub fn colour_codes(&self) -> RangeInclusive<u16> {
        match self.depth {
            24 => 1..=3,
            _ => 0..=0,
        }
    }

    /// Bits of a pixel in the bitmap's planes.
    pub fn bits(&self, bitmap: u16) -> u64 {
        match (bitmap, self.depth) {
            (0, depth) if depth < 24 => u64::from(depth),
            _ => 8,
        }
    }

    pub fn chunk(&self) -> Vec<u8> {
        let mut chunk = Vec::new();
        chunk.extend_from_slice(&self.width.to_le_bytes());
        chunk.extend_from_slice(&self.height.to_le_bytes());
        chunk.extend_from_slice(&self.resolution.to_le_bytes());
        chunk.push(self.metric);
        chunk.extend_from_slice(&self.compression.to_le_bytes());
        chunk.extend_from_slice(&self.depth.to_le_bytes());
        chunk.extend_from_slice(&self.planes.to_le_bytes());
        chunk.extend_from_slice(&self.colours.to_le_bytes());
        chunk.push(self.grey);
        chunk.extend_from_slice(&self.total_size.to_le_bytes());
        chunk.extend_from_slice(&self.active_layer.to_le_bytes());
        chunk.extend_from_slice(&self.layer_count.to_le_bytes());
        chunk
    }
}

/// A block that is only skipped.
#[derive(Clone, Debug)]
pub struct Skipped {
    pub id: u16,
    pub initial: u32,
    pub data: Vec<u8>,
}

impl Skipped {
    fn node(&self) -> Node {
        Node::new(self.id, self.initial, self.data.clone())
    }
}

/// What a plane's rows are written with.
#[derive(Clone, Copy, Debug, PartialEq)]
pub enum Form {
    /// Bytes up to a whole group of 32 bits.
    Padded,
    /// Nothing: a row is as many bytes as pixels, also where a pixel is no byte
    /// and such a row is wrong.
    Unpadded,
}

impl Form {
    pub const BOTH: [Form; 2] = [Form::Padded, Form::Unpadded];

    /// Bytes of a row of so many pixels of so many bits.
    pub fn row(self, width: u64, bits: u64) -> u64 {
        match self {
            Form::Padded => (width * bits + 31) / 32 * 4,
            Form::Unpadded => width,
        }
    }
}

#[derive(Clone, Debug)]
pub struct Channel {
    pub bitmap: u16,
    pub channel: u16,
    pub form: Form,
    /// None writes the plane length that the form and the parent's rectangles
    /// give.
    pub plane: Option<u32>,
    pub content: Vec<u8>,
}

impl Channel {
    fn node(&self, plane_length: u64) -> Node {
        let plane = self.plane.unwrap_or(plane_length as u32);
        let mut data = Vec::new();
        data.extend_from_slice(&(self.content.len() as u32).to_le_bytes());
        data.extend_from_slice(&plane.to_le_bytes());
        data.extend_from_slice(&self.bitmap.to_le_bytes());
        data.extend_from_slice(&self.channel.to_le_bytes());
        data.extend_from_slice(&self.content);
        Node::new(5, 12, data)
    }
}

/// A block inside a layer, and likewise inside a selection or an alpha channel.
#[derive(Clone, Debug)]
pub enum InLayer {
    Channel(Channel),
    Skipped(Skipped),
}

impl InLayer {
    /// The block, with the plane length that its parent gives a channel.
    fn node(&self, plane_length: impl Fn(&Channel) -> u64) -> Node {
        match self {
            InLayer::Channel(channel) => channel.node(plane_length(channel)),
            InLayer::Skipped(skipped) => skipped.node(),
        }
    }
}

/// A name field: the text, then zeros.
fn named(text: &str) -> [u8; 256] {
    let mut name = [0; 256];
    for (to, from) in name.iter_mut().zip(text.bytes()) {
        *to = from;
    }
    name
}

/// Adds a rectangle to a chunk.
fn rectangle(chunk: &mut Vec<u8>, rectangle: &Rectangle) {
    for corner in rectangle.corners().iter() {
        chunk.extend_from_slice(&corner.to_le_bytes());
    }
}

/// The layer chunk's fields as written, the header's initial length, and the
/// blocks inside.
#[derive(Clone, Debug)]
pub struct Layer {
    pub initial: u32,
    pub name: [u8; 256],
    pub kind: u8,
    pub image_border: Rectangle,
    pub image_saved: Rectangle,
    pub opacity: u8,
    pub blending: u8,
    pub visible: u8,
    pub protected: u8,
    pub group: u8,
    pub mask_border: Rectangle,
    pub mask_saved: Rectangle,
    pub linked: u8,
    pub disabled: u8,
    pub inverted: u8,
    pub blend_count: u16,
    pub blend_ranges: [u8; 40],
    pub bitmaps: u16,
    pub channels: u16,
    pub inside: Vec<InLayer>,
}

impl Layer {
    /// A layer without bitmaps yet, with both image rectangles the same.
    pub fn new(saved: Rectangle) -> Layer {
        Layer {
            initial: 375,
            name: [0; 256],
            kind: 0,
            image_border: saved,
            image_saved: saved,
            opacity: 0,
            blending: 0,
            visible: 0,
            protected: 0,
            group: 0,
            mask_border: Rectangle::default(),
            mask_saved: Rectangle::default(),
            linked: 0,
            disabled: 0,
            inverted: 0,
            blend_count: 0,
            blend_ranges: [0; 40],
            bitmaps: 1,
            channels: 1,
            inside: Vec::new(),
        }
    }

    pub fn named(mut self, name: &str) -> Layer {
        self.name = named(name);
        self
    }

    /// Adds a channel of padded rows.
    pub fn with(self, bitmap: u16, channel: u16, content: Vec<u8>) -> Layer {
        self.with_rows(Form::Padded, bitmap, channel, content)
    }

    /// Adds a channel and keeps the two counts true, whatever the order.
    pub fn with_rows(mut self, form: Form, bitmap: u16, channel: u16, content: Vec<u8>) -> Layer {
        self.inside.push(InLayer::Channel(Channel {
            bitmap,
            channel,
            form,
            plane: None,
            content,
        }));
        self.count_channels();
        self
    }

    pub fn with_skipped(mut self, id: u16, initial: u32, data: Vec<u8>) -> Layer {
        self.inside
            .push(InLayer::Skipped(Skipped { id, initial, data }));
        self
    }

    fn count_channels(&mut self) {
        let codes: Vec<u16> = self
            .inside
            .iter()
            .filter_map(|part| match part {
                InLayer::Channel(channel) => Some(channel.bitmap),
                InLayer::Skipped(_) => None,
            })
            .collect();
        self.channels = codes.len() as u16;
        self.bitmaps = 1 + codes.iter().filter(|&&bitmap| bitmap != 0).count() as u16;
    }

    pub fn saved(&self, bitmap: u16) -> Rectangle {
        if bitmap == 2 {
            self.mask_saved
        } else {
            self.image_saved
        }
    }

    /// Bytes of a row of the bitmap's planes.
    pub fn row_length(&self, image: &Image, bitmap: u16, form: Form) -> u64 {
        let width = self.saved(bitmap).width().max(0) as u64;
        form.row(width, image.bits(bitmap))
    }

    pub fn plane_length(&self, image: &Image, bitmap: u16, form: Form) -> u64 {
        self.row_length(image, bitmap, form) * self.saved(bitmap).height().max(0) as u64
    }

    pub fn chunk(&self) -> Vec<u8> {
        let mut chunk = self.name.to_vec();
        chunk.push(self.kind);
        rectangle(&mut chunk, &self.image_border);
        rectangle(&mut chunk, &self.image_saved);
        chunk.extend_from_slice(&[
            self.opacity,
            self.blending,
            self.visible,
            self.protected,
            self.group,
        ]);
        rectangle(&mut chunk, &self.mask_border);
        rectangle(&mut chunk, &self.mask_saved);
        chunk.extend_from_slice(&[self.linked, self.disabled, self.inverted]);
        chunk.extend_from_slice(&self.blend_count.to_le_bytes());
        chunk.extend_from_slice(&self.blend_ranges);
        chunk.extend_from_slice(&self.bitmaps.to_le_bytes());
        chunk.extend_from_slice(&self.channels.to_le_bytes());
        chunk
    }

    fn node(&self, image: &Image) -> Node {
        let plane_length =
            |channel: &Channel| self.plane_length(image, channel.bitmap, channel.form);
        let inside = self.inside.iter();
        let mut node = Node::new(4, self.initial, self.chunk());
        node.children = inside.map(|part| part.node(plane_length)).collect();
        node
    }
}

#[derive(Clone, Debug)]
pub enum InBank {
    Layer(Layer),
    Skipped(Skipped),
}

#[derive(Clone, Debug)]
pub enum Main {
    Palette(Vec<[u8; 4]>),
    Bank(Vec<InBank>),
    Selection(Area),
    AlphaBank(AlphaBank),
    Skipped(Skipped),
}

/// What holds channels: a layer, or the area of a selection or alpha channel.
pub enum Holder<'a> {
    Layer(&'a mut Layer),
    Area(&'a mut Area),
}

impl<'a> Holder<'a> {
    pub fn inside(self) -> &'a mut Vec<InLayer> {
        match self {
            Holder::Layer(layer) => &mut layer.inside,
            Holder::Area(area) => &mut area.inside,
        }
    }

    pub fn rectangles(self) -> Vec<&'a mut Rectangle> {
        match self {
            Holder::Layer(layer) => vec![
                &mut layer.image_border,
                &mut layer.image_saved,
                &mut layer.mask_border,
                &mut layer.mask_saved,
            ],
            Holder::Area(area) => vec![&mut area.border, &mut area.saved],
        }
    }
}

/// A file: the image block, then the other main blocks in their order.
#[derive(Clone, Debug)]
pub struct Picture {
    pub image: Image,
    pub main: Vec<Main>,
}

impl Picture {
    pub fn new(image: Image) -> Picture {
        Picture {
            image,
            main: Vec::new(),
        }
    }

    pub fn palette(mut self, entries: Vec<[u8; 4]>) -> Picture {
        self.main.push(Main::Palette(entries));
        self
    }

    pub fn skipped(mut self, id: u16, initial: u32, data: Vec<u8>) -> Picture {
        self.main.push(Main::Skipped(Skipped { id, initial, data }));
        self
    }

    /// Adds the bank and sets the image's layer count.
    pub fn bank(mut self, inside: Vec<InBank>) -> Picture {
        let is_layer = |part: &&InBank| matches!(part, InBank::Layer(_));
        self.image.layer_count = inside.iter().filter(is_layer).count() as u16;
        self.main.push(Main::Bank(inside));
        self
    }

    pub fn selection(mut self, selection: Area) -> Picture {
        self.main.push(Main::Selection(selection));
        self
    }

    pub fn alphas(mut self, inside: Vec<InAlphaBank>) -> Picture {
        self.main.push(Main::AlphaBank(AlphaBank::new(inside)));
        self
    }

    pub fn layers(&self) -> Vec<&Layer> {
        let mut layers = Vec::new();
        for main in &self.main {
            if let Main::Bank(inside) = main {
                for part in inside {
                    if let InBank::Layer(layer) = part {
                        layers.push(layer);
                    }
                }
            }
        }
        layers
    }

    /// All that holds channels, in file order.
    pub fn holders_mut(&mut self) -> Vec<Holder<'_>> {
        let mut holders = Vec::new();
        for main in &mut self.main {
            match main {
                Main::Bank(inside) => {
                    for part in inside {
                        if let InBank::Layer(layer) = part {
                            holders.push(Holder::Layer(layer));
                        }
                    }
                }
                Main::Selection(selection) => holders.push(Holder::Area(selection)),
                Main::AlphaBank(bank) => {
                    let areas = bank.alphas_mut().map(|alpha| &mut alpha.area);
                    holders.extend(areas.map(Holder::Area));
                }
                Main::Palette(_) | Main::Skipped(_) => {}
            }
        }
        holders
    }

    pub fn layers_mut(&mut self) -> Vec<&mut Layer> {
        let holders = self.holders_mut().into_iter();
        let layer = |holder| match holder {
            Holder::Layer(layer) => Some(layer),
            Holder::Area(_) => None,
        };
        holders.filter_map(layer).collect()
    }

    /// The areas of the selection and of the alpha channels.
    pub fn areas_mut(&mut self) -> Vec<&mut Area> {
        let holders = self.holders_mut().into_iter();
        let area = |holder| match holder {
            Holder::Area(area) => Some(area),
            Holder::Layer(_) => None,
        };
        holders.filter_map(area).collect()
    }

    pub fn tree(&self) -> Tree {
        let mut blocks = vec![Node::new(0, 38, self.image.chunk())];
        for main in &self.main {
            blocks.push(match main {
                Main::Palette(entries) => {
                    let mut data = (entries.len() as u32).to_le_bytes().to_vec();
                    data.extend(entries.iter().flatten());
                    Node::new(2, 4, data)
                }
                Main::Bank(inside) => {
                    let mut bank = Node::new(3, 0, Vec::new());
                    bank.children = inside
                        .iter()
                        .map(|part| match part {
                            InBank::Layer(layer) => layer.node(&self.image),
                            InBank::Skipped(skipped) => skipped.node(),
                        })
                        .collect();
                    bank
                }
                Main::Selection(selection) => selection.node(),
                Main::AlphaBank(bank) => bank.node(),
                Main::Skipped(skipped) => skipped.node(),
            });
        }
        Tree {
            header: file_header(3, 0),
            blocks,
        }
    }

    pub fn bytes(&self) -> Vec<u8> {
        self.tree().bytes()
    }
}
