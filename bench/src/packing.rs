//! A packer in safe Rust beside which packing is measured. Like the library it carries how many equal
//! bytes have just gone by, so that three of them start the run that follows, and copies literals
//! whole. It measures before it stores, whatever the room, and allocates nothing.

use crate::reference::psp::{self as reference, number, PLANE_LIMIT};

/// The most bytes of a plane that a packet stands for.
const MOST: usize = 127;

#[derive(Clone, Copy)]
enum Packet {
    Literals(usize),
    Run(usize),
}

/// The number, and the length of the packed form.
pub fn pack(plane: &[u8], dest: &mut [u8]) -> (u32, usize) {
    if plane.len() as u64 > PLANE_LIMIT {
        return (number::PACKER_PLANE_OVER_LIMIT, 0);
    }
    let length = measure(plane);
    if dest.len() < length {
        return (number::PACKED_DOES_NOT_FIT, 0);
    }
    store(plane, dest);
    (number::ACCEPTED, length)
}

/// The packet at the front of what is left of a plane, of which so many bytes are known to be equal,
/// and how many are known to be behind the packet.
fn next(left: &[u8], known: usize) -> (Packet, usize) {
    let mut start = 0;
    let mut same = known.max(1);
    let mut byte = left[0];
    let mut at = same;
    loop {
        if same == 3 {
            break;
        }
        if start >= MOST {
            return (Packet::Literals(MOST), 1);
        }
        let next = match left.get(at) {
            Some(&next) => next,
            None => return (Packet::Literals(left.len().min(MOST)), 1),
        };
        if next == byte {
            same += 1;
        } else {
            start = at;
            same = 1;
            byte = next;
        }
        at += 1;
    }
    if start > 0 {
        return (Packet::Literals(start), same);
    }
    let behind = left[same..].iter().take(MOST - same);
    let run = same + behind.take_while(|next| **next == byte).count();
    (Packet::Run(run), 1)
}

fn measure(plane: &[u8]) -> usize {
    let (mut left, mut known, mut length) = (plane, 1, 0);
    while !left.is_empty() {
        let (packet, behind) = next(left, known);
        known = behind;
        match packet {
            Packet::Literals(count) => {
                length += 1 + count;
                left = &left[count..];
            }
            Packet::Run(count) => {
                length += 2;
                left = &left[count..];
            }
        }
    }
    length
}

fn store(plane: &[u8], dest: &mut [u8]) {
    let (mut left, mut known, mut to) = (plane, 1, dest);
    while !left.is_empty() {
        let (packet, behind) = next(left, known);
        known = behind;
        match packet {
            Packet::Literals(count) => {
                let (literals, after) = left.split_at(count);
                let (here, rest) = to.split_at_mut(1 + count);
                here[0] = count as u8;
                here[1..].copy_from_slice(literals);
                left = after;
                to = rest;
            }
            Packet::Run(count) => {
                let (here, rest) = to.split_at_mut(2);
                here[0] = 128 + count as u8;
                here[1] = left[0];
                left = &left[count..];
                to = rest;
            }
        }
    }
}

/// The answers are the reference's, and the bytes too: of every short plane of two values, of equal
/// bytes and of pairs about the most bytes of a packet, and of rooms about the packed form.
pub fn check() {
    for length in 0..=10 {
        for choice in 0..1u32 << length {
            let plane: Vec<u8> = (0..length).map(|at| (choice >> at & 1) as u8).collect();
            same(&plane);
        }
    }
    for before in 0..=3 {
        for length in 0..=2 * MOST + 8 {
            let equal = vec![7; length];
            let pairs: Vec<u8> = (0..length).map(|at| (at / 2) as u8).collect();
            for bytes in [equal, pairs] {
                let mut plane: Vec<u8> = (0..before).collect();
                plane.extend(bytes);
                plane.push(9);
                same(&plane);
            }
        }
    }
}

fn same(plane: &[u8]) {
    let length = reference::planes::packed_form(plane).len();
    for room in [length, length + 1, length.saturating_sub(1)] {
        let (mut ours, mut theirs) = (vec![0xAA; room], vec![0xAA; room]);
        let (number, length) = reference::planes::pack(plane, &mut theirs);
        assert_eq!(pack(plane, &mut ours), (number, length as usize));
        assert_eq!(ours, theirs);
    }
}
