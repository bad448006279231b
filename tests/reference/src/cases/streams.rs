//! Streams of packets: random ones, valid and spoilt, and systematic ones.

use super::pictures;
use crate::case::{Case, DESTINATION_LIMIT};
use crate::psp::planes::packed_form;
use crate::random::Random;

/// Lengths that no buffer has, and that wrap.
pub const HUGE: [u64; 7] = [
    1 << 31,
    (1 << 32) - 1,
    1 << 32,
    (1 << 32) + 1,
    1 << 63,
    u64::MAX - 1,
    u64::MAX,
];

/// A destination that fits as a rule, or is a little too short or too long.
pub fn destination_near(random: &mut Random, length: u64) -> u32 {
    let length = length.min(u64::from(DESTINATION_LIMIT)) as i64;
    let any = random.between(0, 64);
    let near = length + random.pick(&[0, 0, 0, 0, 0, 1, 2, 7, -1, -1, -2, any]);
    near.clamp(0, i64::from(DESTINATION_LIMIT)) as u32
}

/// A stream with its plane length; most are good.
pub fn stream(random: &mut Random) -> (Vec<u8>, u64) {
    let small = random.index(40);
    let long = random.index(3_000);
    let longest = random.index(20_000);
    let plane = random.pick(&[0, 1, small, small, small, small, small, 300, long, longest]);
    let plane = if plane == longest && !random.one_in(4) {
        small
    } else {
        plane
    };
    let mut stream = if random.one_in(4) {
        let bits: Vec<u8> = random.bytes(plane).iter().map(|byte| byte & 1).collect();
        packed_form(&bits)
    } else {
        pictures::packets(random, plane)
    };
    let plane = spoil(random, &mut stream, plane as u64);
    (stream, plane)
}

/// Spoils a stream or its plane length, or leaves them good.
fn spoil(random: &mut Random, stream: &mut Vec<u8>, plane: u64) -> u64 {
    match random.below(14) {
        0 => stream.truncate(random.index(stream.len() + 1)),
        1 => {
            let at = random.index(stream.len() + 1);
            stream.insert(at, random.pick(&[0, 127, 128, 128, 129, 255]));
        }
        2 => {
            let at = random.index(stream.len());
            if let Some(byte) = stream.get_mut(at) {
                *byte = random.pick(&[0, 1, 127, 128, 129, 255]);
            }
        }
        3 => stream.extend_from_slice(random.pick(&[&[0][..], &[128], &[129, 7], &[1, 7], &[129]])),
        4 => return plane + 1,
        5 => return plane.saturating_sub(1),
        6 => return random.below(plane + 130),
        7 => {
            // A 128 where a packet starts.
            let starts = packet_starts(stream);
            let at = starts[random.index(starts.len())];
            stream.insert(at, 128);
        }
        8 => {
            let length = random.index(30);
            *stream = random.bytes(length);
        }
        _ => {}
    }
    plane
}

/// The starts of a stream's packets and its end; some are past a broken end.
fn packet_starts(stream: &[u8]) -> Vec<usize> {
    let mut starts = vec![0];
    let mut at = 0;
    while let Some(&count) = stream.get(at) {
        at += if count < 128 {
            1 + usize::from(count)
        } else {
            2
        };
        starts.push(at.min(stream.len()));
    }
    starts
}

pub fn packets(random: &mut Random) -> Case {
    let (stream, plane) = stream(random);
    let plane = if random.one_in(40) {
        random.pick(&HUGE)
    } else {
        plane
    };
    Case::Packets {
        plane,
        destination: destination_near(random, plane),
        stream,
    }
}

/// The systematic cases.
pub fn all(cases: &mut Vec<Case>) {
    worked_streams(cases);
    short_streams(cases);
}

/// Document 01's streams, with destinations of every small length.
fn worked_streams(cases: &mut Vec<Case>) {
    let streams: [(&[u8], u64); 8] = [
        (&[0x83, 0x41], 3),
        (&[0x00, 0x81, 0x07], 1),
        (&[0x81, 0x07, 0x00], 1),
        (&[0x83, 0x41], 2),
        (&[0x02, 0x41], 2),
        (&[0x80, 0x41], 1),
        (&[], 0),
        (&[], 1),
    ];
    for (stream, plane) in streams {
        for destination in 0..6 {
            cases.push(Case::Packets {
                plane,
                destination,
                stream: stream.to_vec(),
            });
        }
    }
}

/// Every stream of up to three bytes out of those that matter, for every
/// plane length around what it gives.
fn short_streams(cases: &mut Vec<Case>) {
    let bytes = [0, 1, 2, 127, 128, 129, 130, 255];
    let mut streams: Vec<Vec<u8>> = vec![Vec::new()];
    let mut last = streams.clone();
    for _ in 0..3 {
        let mut next = Vec::new();
        for stream in &last {
            for &byte in &bytes {
                let mut longer = stream.clone();
                longer.push(byte);
                next.push(longer);
            }
        }
        streams.extend(next.clone());
        last = next;
    }
    for (at, stream) in streams.iter().enumerate() {
        for plane in [0, 1, 2, 3, 127, 128, 129].iter().copied() {
            // The longer streams take turns; there are many.
            if stream.len() < 3 || at as u64 % 7 == plane % 7 {
                let stream = stream.clone();
                cases.push(Case::Packets {
                    plane,
                    destination: plane as u32 + 3,
                    stream,
                });
            }
        }
    }
}
