//! One test case and its binary form: a kind byte, the payload's length as
//! four bytes, the payload. All numbers are little-endian; a byte string is
//! its length as four bytes, then its bytes.

use std::io::{self, Read, Write};

use crate::psp::listing::Entry;
use crate::psp::rectangle::Rectangle;

/// Longest payload that a program has room for.
pub const PAYLOAD_LIMIT: usize = 4_194_304;
pub const DESTINATION_LIMIT: u32 = 20_000;
pub const CANVAS_LIMIT: u32 = 65_600;
pub const ROOM_LIMIT: u32 = 512;

/// Where the plane reader finds a stored channel in its input, and what it is
/// to make of it.
#[derive(Clone, Copy, Debug, PartialEq)]
pub struct Stored {
    pub start: u64,
    pub length: u64,
    pub plane: u64,
    pub code: u32,
}

impl Stored {
    /// A listed channel, with the image's compression as its code.
    pub fn of(channel: &Entry, code: u32) -> Stored {
        Stored {
            start: u64::from(channel.content_start),
            length: u64::from(channel.stored_length),
            plane: u64::from(channel.plane_length),
            code,
        }
    }
}

/// The sides of a canvas, the rectangle of a plane on it, and the bytes of the
/// plane's row.
#[derive(Clone, Copy, Debug, PartialEq)]
pub struct Placing {
    pub width: u32,
    pub height: u32,
    pub rectangle: Rectangle,
    pub row: u32,
}

#[derive(Clone, Debug, PartialEq)]
pub enum Case {
    Listing {
        room: u32,
        input: Vec<u8>,
    },
    /// A listing that stores nothing.
    Count {
        room: u32,
        input: Vec<u8>,
    },
    Plane {
        stored: Stored,
        destination: u32,
        input: Vec<u8>,
    },
    Packets {
        plane: u64,
        destination: u32,
        stream: Vec<u8>,
    },
    Pack {
        destination: u32,
        plane: Vec<u8>,
    },
    Canvas {
        placing: Placing,
        canvas: Vec<u8>,
        plane: Vec<u8>,
    },
    Intersection {
        one: Rectangle,
        other: Rectangle,
    },
    PaletteView {
        room: u32,
        ramp: u32,
        input: Vec<u8>,
    },
    ImageFacts {
        room: u32,
        input: Vec<u8>,
    },
    LayerFacts {
        room: u32,
        k: u32,
        input: Vec<u8>,
    },
    LayerName {
        room: u32,
        k: u32,
        input: Vec<u8>,
    },
    SelectionFacts {
        room: u32,
        input: Vec<u8>,
    },
    AlphaFacts {
        room: u32,
        k: u32,
        input: Vec<u8>,
    },
    AlphaName {
        room: u32,
        k: u32,
        input: Vec<u8>,
    },
    /// Facts and names of whatever stands at a place.
    Place {
        place: u64,
        input: Vec<u8>,
    },
    Dots {
        bits: u64,
        metric: u8,
    },
    /// The numbers are bytes, four each, as all numbers of a case.
    WriteTable {
        destination: u32,
        numbers: Vec<u8>,
    },
    /// The numbers are those that the table has room for.
    ReadTable {
        numbers: u32,
        file: Vec<u8>,
    },
}

impl Case {
    pub fn kind(&self) -> u8 {
        match self {
            Case::Listing { .. } => b'L',
            Case::Count { .. } => b'T',
            Case::Plane { .. } => b'P',
            Case::Packets { .. } => b'U',
            Case::Pack { .. } => b'K',
            Case::Canvas { .. } => b'C',
            Case::Intersection { .. } => b'I',
            Case::PaletteView { .. } => b'V',
            Case::ImageFacts { .. } => b'F',
            Case::LayerFacts { .. } => b'Y',
            Case::LayerName { .. } => b'N',
            Case::SelectionFacts { .. } => b'S',
            Case::AlphaFacts { .. } => b'A',
            Case::AlphaName { .. } => b'M',
            Case::Place { .. } => b'H',
            Case::Dots { .. } => b'D',
            Case::WriteTable { .. } => b'W',
            Case::ReadTable { .. } => b'R',
        }
    }

    pub fn payload(&self) -> Vec<u8> {
        let mut to = Payload::default();
        match self {
            Case::Listing { room, input }
            | Case::Count { room, input }
            | Case::ImageFacts { room, input }
            | Case::SelectionFacts { room, input } => to.u32(*room).string(input),
            Case::PaletteView { room, ramp, input } => to.u32(*room).u32(*ramp).string(input),
            Case::LayerFacts { room, k, input }
            | Case::LayerName { room, k, input }
            | Case::AlphaFacts { room, k, input }
            | Case::AlphaName { room, k, input } => to.u32(*room).u32(*k).string(input),
            Case::Place { place, input } => to.u64(*place).string(input),
            Case::Intersection { one, other } => to.rectangle(one).rectangle(other),
            Case::Dots { bits, metric } => to.u64(*bits).u8(*metric),
            Case::WriteTable {
                destination,
                numbers,
            } => to.u32(*destination).string(numbers),
            Case::ReadTable { numbers, file } => to.u32(*numbers).string(file),
            _ => self.pixels(&mut to),
        };
        to.bytes
    }

    /// The payload of the kinds that read or write pixels.
    fn pixels<'a>(&self, to: &'a mut Payload) -> &'a mut Payload {
        match self {
            Case::Plane {
                stored,
                destination,
                input,
            } => to.stored(stored).u32(*destination).string(input),
            Case::Packets {
                plane,
                destination,
                stream,
            } => to.u64(*plane).u32(*destination).string(stream),
            Case::Pack { destination, plane } => to.u32(*destination).string(plane),
            Case::Canvas {
                placing,
                canvas,
                plane,
            } => to.placing(placing).string(canvas).string(plane),
            _ => to,
        }
    }

    /// The case of a kind and a payload; none if they do not fit together.
    pub fn decode(kind: u8, payload: &[u8]) -> Option<Case> {
        let mut from = Taker { rest: payload };
        let case = match kind {
            b'H' | b'P' | b'U' | b'K' | b'C' | b'I' | b'D' => Case::of_parts(kind, &mut from)?,
            b'W' | b'R' => Case::of_saved(kind, &mut from)?,
            _ => Case::of_file(kind, &mut from)?,
        };
        if from.rest.is_empty() {
            Some(case)
        } else {
            None
        }
    }

    /// A case whose input is a whole file, which comes last.
    fn of_file(kind: u8, from: &mut Taker) -> Option<Case> {
        let room = from.u32()?;
        let second = match kind {
            b'L' | b'T' | b'F' | b'S' => 0,
            _ => from.u32()?,
        };
        let input = from.string()?;
        let (ramp, k) = (second, second);
        Some(match kind {
            b'L' => Case::Listing { room, input },
            b'T' => Case::Count { room, input },
            b'V' => Case::PaletteView { room, ramp, input },
            b'F' => Case::ImageFacts { room, input },
            b'Y' => Case::LayerFacts { room, k, input },
            b'N' => Case::LayerName { room, k, input },
            b'S' => Case::SelectionFacts { room, input },
            b'A' => Case::AlphaFacts { room, k, input },
            b'M' => Case::AlphaName { room, k, input },
            _ => return None,
        })
    }

    /// A table to be saved, which is whole numbers, or a saved one.
    fn of_saved(kind: u8, from: &mut Taker) -> Option<Case> {
        let (size, bytes) = (from.u32()?, from.string()?);
        match kind {
            b'R' => Some(Case::ReadTable {
                numbers: size,
                file: bytes,
            }),
            _ if bytes.len() % 4 == 0 => Some(Case::WriteTable {
                destination: size,
                numbers: bytes,
            }),
            _ => None,
        }
    }

    /// A case of another kind. Fields of a struct expression are evaluated in
    /// the written order, which is the payload's.
    fn of_parts(kind: u8, from: &mut Taker) -> Option<Case> {
        Some(match kind {
            b'H' => Case::Place {
                place: from.u64()?,
                input: from.string()?,
            },
            b'P' => Case::Plane {
                stored: from.stored()?,
                destination: from.u32()?,
                input: from.string()?,
            },
            b'U' => Case::Packets {
                plane: from.u64()?,
                destination: from.u32()?,
                stream: from.string()?,
            },
            b'K' => Case::Pack {
                destination: from.u32()?,
                plane: from.string()?,
            },
            b'C' => Case::Canvas {
                placing: from.placing()?,
                canvas: from.string()?,
                plane: from.string()?,
            },
            b'I' => Case::Intersection {
                one: from.rectangle()?,
                other: from.rectangle()?,
            },
            _ => Case::Dots {
                bits: from.u64()?,
                metric: from.array::<1>()?[0],
            },
        })
    }

    pub fn write(&self, to: &mut dyn Write) -> io::Result<()> {
        let payload = self.payload();
        to.write_all(&[self.kind()])?;
        to.write_all(&(payload.len() as u32).to_le_bytes())?;
        to.write_all(&payload)
    }

    /// The next case, or none at the end. A broken form is an error.
    pub fn read(from: &mut dyn Read) -> io::Result<Option<Case>> {
        let broken = |text: &str| io::Error::new(io::ErrorKind::InvalidData, text.to_string());
        let mut kind = [0];
        if from.read(&mut kind)? == 0 {
            return Ok(None);
        }
        let mut length = [0; 4];
        from.read_exact(&mut length)?;
        let length = u32::from_le_bytes(length) as usize;
        if length > PAYLOAD_LIMIT {
            return Err(broken("a payload over 4,194,304 bytes"));
        }
        let mut payload = vec![0; length];
        from.read_exact(&mut payload)?;
        match Case::decode(kind[0], &payload) {
            Some(case) => Ok(Some(case)),
            None => Err(broken("a payload that does not fit its kind")),
        }
    }
}

#[derive(Default)]
struct Payload {
    bytes: Vec<u8>,
}

impl Payload {
    fn u8(&mut self, value: u8) -> &mut Payload {
        self.bytes.push(value);
        self
    }

    fn u32(&mut self, value: u32) -> &mut Payload {
        self.bytes.extend_from_slice(&value.to_le_bytes());
        self
    }

    fn u64(&mut self, value: u64) -> &mut Payload {
        self.bytes.extend_from_slice(&value.to_le_bytes());
        self
    }

    fn stored(&mut self, value: &Stored) -> &mut Payload {
        self.u64(value.start).u64(value.length);
        self.u64(value.plane).u32(value.code)
    }

    fn placing(&mut self, value: &Placing) -> &mut Payload {
        self.u32(value.width).u32(value.height);
        self.rectangle(&value.rectangle).u32(value.row)
    }

    fn rectangle(&mut self, value: &Rectangle) -> &mut Payload {
        for corner in value.corners().iter() {
            self.bytes.extend_from_slice(&corner.to_le_bytes());
        }
        self
    }

    fn string(&mut self, value: &[u8]) -> &mut Payload {
        self.u32(value.len() as u32);
        self.bytes.extend_from_slice(value);
        self
    }
}

struct Taker<'a> {
    rest: &'a [u8],
}

impl<'a> Taker<'a> {
    fn take(&mut self, length: usize) -> Option<&'a [u8]> {
        if length > self.rest.len() {
            return None;
        }
        let (head, tail) = self.rest.split_at(length);
        self.rest = tail;
        Some(head)
    }

    fn array<const N: usize>(&mut self) -> Option<[u8; N]> {
        let mut array = [0; N];
        array.copy_from_slice(self.take(N)?);
        Some(array)
    }

    fn u32(&mut self) -> Option<u32> {
        self.array().map(u32::from_le_bytes)
    }

    fn u64(&mut self) -> Option<u64> {
        self.array().map(u64::from_le_bytes)
    }

    fn rectangle(&mut self) -> Option<Rectangle> {
        let mut corners = [0; 4];
        for corner in corners.iter_mut() {
            *corner = i32::from_le_bytes(self.array()?);
        }
        let [left, top, right, bottom] = corners;
        Some(Rectangle {
            left,
            top,
            right,
            bottom,
        })
    }

    fn stored(&mut self) -> Option<Stored> {
        Some(Stored {
            start: self.u64()?,
            length: self.u64()?,
            plane: self.u64()?,
            code: self.u32()?,
        })
    }

    fn placing(&mut self) -> Option<Placing> {
        Some(Placing {
            width: self.u32()?,
            height: self.u32()?,
            rectangle: self.rectangle()?,
            row: self.u32()?,
        })
    }

    fn string(&mut self) -> Option<Vec<u8>> {
        let length = self.u32()? as usize;
        self.take(length).map(|bytes| bytes.to_vec())
    }
}
