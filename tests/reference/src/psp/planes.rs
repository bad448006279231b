//! The plane reader, the packet reader and the packer.

use super::{number, part, PLANE_LIMIT};

/// Number, place inside the stored channel, bytes written.
#[derive(Clone, Copy, Debug, PartialEq, Eq)]
pub struct PlaneAnswer {
    pub number: u32,
    pub place: u64,
    pub bytes: u64,
}

fn refuse(number: u32, place: u64) -> PlaneAnswer {
    PlaneAnswer {
        number,
        place,
        bytes: 0,
    }
}

/// Reads the plane stored from `start` for `stored` bytes of the input.
pub fn read_plane(
    input: &[u8],
    start: u64,
    stored: u64,
    plane: u64,
    code: u32,
    destination: &mut [u8],
) -> PlaneAnswer {
    if code > 1 {
        return refuse(number::CODE_UNKNOWN, 0);
    }
    if plane > PLANE_LIMIT {
        return refuse(number::PLANE_OVER_LIMIT, 0);
    }
    let content = match part(input, start, stored) {
        Some(content) => content,
        None => return refuse(number::PART_OUTSIDE, 0),
    };
    if code == 1 {
        return read_packets(content, plane, destination);
    }
    if (destination.len() as u64) < plane {
        return refuse(number::DESTINATION_SHORT, 0);
    }
    if stored != plane {
        return refuse(number::RAW_LENGTH_DIFFERS, 0);
    }
    write_front(destination, content);
    PlaneAnswer {
        number: number::ACCEPTED,
        place: stored,
        bytes: plane,
    }
}

/// Reads a stream of packets that has to give exactly the plane length.
pub fn read_packets(stream: &[u8], plane: u64, destination: &mut [u8]) -> PlaneAnswer {
    if (destination.len() as u64) < plane {
        return refuse(number::DESTINATION_SHORT, 0);
    }
    match unpacked(stream, plane) {
        Ok(unpacked) => {
            write_front(destination, &unpacked);
            PlaneAnswer {
                number: number::ACCEPTED,
                place: stream.len() as u64,
                bytes: plane,
            }
        }
        Err(refusal) => refusal,
    }
}

/// The bytes of a stream, apart from the destination, which a refusal leaves
/// unchanged.
fn unpacked(stream: &[u8], plane: u64) -> Result<Vec<u8>, PlaneAnswer> {
    let mut unpacked: Vec<u8> = Vec::new();
    let mut at = 0;
    loop {
        let left = plane - unpacked.len() as u64;
        if left == 0 && at == stream.len() {
            return Ok(unpacked);
        }
        match packet(&stream[at..], left) {
            Ok((count, data)) => {
                unpacked.extend(data.iter().cycle().take(count));
                at += 1 + data.len();
            }
            Err(number) => return Err(refuse(number, at as u64)),
        }
    }
}

/// The packet at the front of a stream: the bytes that it gives, and its data,
/// which for a run is one byte.
fn packet(stream: &[u8], left: u64) -> Result<(usize, &[u8]), u32> {
    let count = match stream.first() {
        Some(_) if left == 0 => return Err(number::STREAM_LONG),
        Some(128) => return Err(number::COUNT_128),
        Some(&count) => usize::from(count),
        None => return Err(number::STREAM_SHORT),
    };
    let (given, length) = if count < 128 {
        (count, count)
    } else {
        (count - 128, 1)
    };
    match stream.get(1..1 + length) {
        None => Err(number::STREAM_SHORT),
        Some(_) if given as u64 > left => Err(number::STREAM_LONG),
        Some(data) => Ok((given, data)),
    }
}

/// Packs a plane; returns number and length.
pub fn pack(plane: &[u8], destination: &mut [u8]) -> (u32, u64) {
    if plane.len() as u64 > PLANE_LIMIT {
        return (number::PACKER_PLANE_OVER_LIMIT, 0);
    }
    let packed = packed_form(plane);
    if destination.len() < packed.len() {
        return (number::PACKED_DOES_NOT_FIT, 0);
    }
    write_front(destination, &packed);
    (number::ACCEPTED, packed.len() as u64)
}

/// The packets of a plane: runs of three and more, literals between them.
pub fn packed_form(plane: &[u8]) -> Vec<u8> {
    const LONGEST: usize = 127;
    let mut packed = Vec::new();
    let mut rest = plane;
    while let Some(&first) = rest.first() {
        let taken = if starts_run(rest) {
            let run = rest
                .iter()
                .take(LONGEST)
                .take_while(|&&byte| byte == first)
                .count();
            packed.push(128 + run as u8);
            packed.push(first);
            run
        } else {
            let furthest = rest.len().min(LONGEST);
            let literals = (1..furthest)
                .find(|&at| starts_run(&rest[at..]))
                .unwrap_or(furthest);
            packed.push(literals as u8);
            packed.extend_from_slice(&rest[..literals]);
            literals
        };
        rest = &rest[taken..];
    }
    packed
}

fn starts_run(bytes: &[u8]) -> bool {
    matches!(bytes, [a, b, c, ..] if a == b && b == c)
}

/// Copies the bytes to the front of a destination that has room for them.
fn write_front(destination: &mut [u8], bytes: &[u8]) {
    for (to, from) in destination.iter_mut().zip(bytes) {
        *to = *from;
    }
}
