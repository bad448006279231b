//! Selections and alpha channels: a rectangle of 8-bit pixels each, and what is
//! written around it.

use super::{named, rectangle, Channel, Form, InLayer, Node, Skipped};
use crate::psp::rectangle::Rectangle;

/// The bitmap code of a selection's channel.
pub const SELECTION: u16 = 3;
/// The bitmap code of an alpha channel's channel.
pub const ALPHA: u16 = 4;

/// A selection's chunk as written, and the blocks inside. An alpha channel has
/// the same behind its name.
#[derive(Clone, Debug)]
pub struct Area {
    pub border: Rectangle,
    pub saved: Rectangle,
    pub bitmaps: u16,
    pub channels: u16,
    pub inside: Vec<InLayer>,
}

impl Area {
    /// An area without its channel yet, with both rectangles the same.
    pub fn new(saved: Rectangle) -> Area {
        Area {
            border: saved,
            saved,
            bitmaps: 1,
            channels: 1,
            inside: Vec::new(),
        }
    }

    pub fn within(mut self, border: Rectangle) -> Area {
        self.border = border;
        self
    }

    /// Adds a channel of padded rows; the counts stay 1.
    pub fn with(self, bitmap: u16, content: Vec<u8>) -> Area {
        self.with_rows(Form::Padded, bitmap, content)
    }

    pub fn with_rows(mut self, form: Form, bitmap: u16, content: Vec<u8>) -> Area {
        self.inside.push(InLayer::Channel(Channel {
            bitmap,
            channel: 0,
            form,
            plane: None,
            content,
        }));
        self
    }

    pub fn with_skipped(mut self, id: u16, initial: u32, data: Vec<u8>) -> Area {
        self.inside
            .push(InLayer::Skipped(Skipped { id, initial, data }));
        self
    }

    pub fn plane_length(&self, form: Form) -> u64 {
        let [width, height] =
            [self.saved.width(), self.saved.height()].map(|side| side.max(0) as u64);
        form.row(width, 8) * height
    }

    fn chunk(&self) -> Vec<u8> {
        let mut chunk = Vec::new();
        rectangle(&mut chunk, &self.border);
        rectangle(&mut chunk, &self.saved);
        chunk.extend_from_slice(&self.bitmaps.to_le_bytes());
        chunk.extend_from_slice(&self.channels.to_le_bytes());
        chunk
    }

    /// The block with that chunk and the blocks inside.
    fn node_of(&self, id: u16, chunk: Vec<u8>) -> Node {
        let plane_length = |channel: &Channel| self.plane_length(channel.form);
        let inside = self.inside.iter();
        let mut node = Node::new(id, chunk.len() as u32, chunk);
        node.children = inside.map(|part| part.node(plane_length)).collect();
        node
    }

    /// The block of a selection.
    pub fn node(&self) -> Node {
        self.node_of(6, self.chunk())
    }
}

#[derive(Clone, Debug)]
pub struct Alpha {
    pub name: [u8; 256],
    pub area: Area,
}

impl Alpha {
    pub fn new(name: &str, area: Area) -> Alpha {
        Alpha {
            name: named(name),
            area,
        }
    }

    fn node(&self) -> Node {
        let mut chunk = self.name.to_vec();
        chunk.extend(self.area.chunk());
        self.area.node_of(8, chunk)
    }
}

#[derive(Clone, Debug)]
pub enum InAlphaBank {
    Alpha(Alpha),
    Skipped(Skipped),
}

impl InAlphaBank {
    fn node(&self) -> Node {
        match self {
            InAlphaBank::Alpha(alpha) => alpha.node(),
            InAlphaBank::Skipped(skipped) => skipped.node(),
        }
    }

    fn is_alpha(&self) -> bool {
        matches!(self, InAlphaBank::Alpha(_))
    }
}

#[derive(Clone, Debug)]
pub struct AlphaBank {
    pub announced: u16,
    pub inside: Vec<InAlphaBank>,
}

impl AlphaBank {
    /// A bank that announces what is inside.
    pub fn new(inside: Vec<InAlphaBank>) -> AlphaBank {
        AlphaBank {
            announced: inside.iter().filter(|part| part.is_alpha()).count() as u16,
            inside,
        }
    }

    pub fn alphas_mut(&mut self) -> impl Iterator<Item = &mut Alpha> {
        self.inside.iter_mut().filter_map(|part| match part {
            InAlphaBank::Alpha(alpha) => Some(alpha),
            InAlphaBank::Skipped(_) => None,
        })
    }

    pub fn node(&self) -> Node {
        let mut node = Node::new(7, 2, self.announced.to_le_bytes().to_vec());
        node.children = self.inside.iter().map(InAlphaBank::node).collect();
        node
    }
}
