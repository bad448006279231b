//! Streams with a packet of every length at every place from 400 bytes before the end of the stream,
//! or of the plane, on: a reader that passes over some of its tests far from both ends has its edges
//! there. Each is read as it is, with a count of 128 in the packet's place, with data or bytes of the
//! plane missing at it, and for planes one byte shorter and longer.

use crate::case::Case;

/// How far before an end the places begin.
const REACH: usize = 400;

/// Bytes of the destination behind the plane.
const REST: u32 = 3;

/// Counts around the lengths that a reader may treat otherwise.
const LITERALS: [u8; 10] = [0, 1, 16, 31, 32, 33, 64, 65, 126, 127];
const RUNS: [u8; 10] = [1, 15, 16, 17, 32, 33, 64, 65, 126, 127];

/// A packet as it is stored, and the bytes of the plane that it gives.
#[derive(Clone)]
struct Packet {
    stored: Vec<u8>,
    given: usize,
}

fn packets() -> Vec<Packet> {
    let literals = LITERALS.map(|count| Packet {
        stored: (0..=count).map(|at| count.wrapping_sub(at)).collect(),
        given: usize::from(count),
    });
    let runs = RUNS.map(|count| Packet {
        stored: vec![128 + count, count ^ 0x55],
        given: usize::from(count),
    });
    [literals, runs].concat()
}

/// A stream, the place of the packet in question, and the plane's bytes before it and in all.
struct Stream {
    bytes: Vec<u8>,
    place: usize,
    before: usize,
    plane: usize,
}

/// A packet at a place behind others, with this behind it: streams and the plane's bytes of each.
fn placed(packet: &Packet, behind: &[u8], given_behind: usize) -> Stream {
    // Full literals, literals and runs, so that every pass has come through them all.
    let mut bytes = Vec::new();
    let mut before = 0;
    for count in [127, 127, 5] {
        bytes.push(count);
        bytes.extend((0..count).map(|at| at ^ 0x33));
        before += usize::from(count);
    }
    for count in [127, 3] {
        bytes.extend([128 + count, count]);
        before += usize::from(count);
    }
    let place = bytes.len();
    bytes.extend(&packet.stored);
    bytes.extend(behind);
    Stream {
        bytes,
        place,
        before,
        plane: before + packet.given + given_behind,
    }
}

/// Packets of so many stored bytes, and what they give: a few long runs, and short ones behind them.
fn long(stored: usize) -> (Vec<u8>, usize) {
    let mut bytes = vec![0; stored % 2];
    let mut given = 0;
    for turn in 0..stored / 2 {
        let count = if turn < 8 { 127 } else { 2 };
        bytes.extend([128 + count, turn as u8]);
        given += usize::from(count);
    }
    (bytes, given)
}

/// Packets that give so many bytes, behind so many that give nothing.
fn wide(given: usize) -> Vec<u8> {
    let mut bytes = vec![0; REACH];
    for turn in 0..given / 127 {
        bytes.extend([255, turn as u8]);
    }
    if given % 127 > 0 {
        bytes.extend([128 + (given % 127) as u8, 0xAA]);
    }
    bytes
}

/// A packet so many bytes before the end of its stream, if it has room there, and far from the end of
/// its plane.
fn before_stream_end(packet: &Packet, distance: usize) -> Option<Stream> {
    let stored = distance.checked_sub(packet.stored.len())?;
    let (behind, given) = long(stored);
    Some(placed(packet, &behind, given))
}

/// A packet so many bytes before the end of its plane, if it has room there, and far from the end of
/// its stream.
fn before_plane_end(packet: &Packet, distance: usize) -> Option<Stream> {
    let given = distance.checked_sub(packet.given)?;
    // What gives nothing may not stand behind a full plane.
    (given > 0).then(|| placed(packet, &wide(given), given))
}

fn case(stream: &[u8], plane: usize) -> Case {
    Case::Packets {
        plane: plane as u64,
        destination: plane as u32 + REST,
        stream: stream.to_vec(),
    }
}

/// As it is, with a count of 128, and for planes one byte shorter and longer.
fn read(stream: Stream) -> [Case; 4] {
    let Stream {
        bytes,
        place,
        plane,
        ..
    } = stream;
    let mut refused = bytes.clone();
    refused[place] = 128;
    [
        case(&bytes, plane),
        case(&refused, plane),
        case(&bytes, plane - 1),
        case(&bytes, plane + 1),
    ]
}

/// Packets whose data ends too soon, so many bytes behind their place, and packets for which the
/// plane has only so many bytes left.
fn cut(packet: &Packet, left: usize) -> Vec<Case> {
    let mut cases = Vec::new();
    let whole = placed(packet, &[], 0);
    if left > 0 && left < packet.stored.len() {
        cases.push(case(&whole.bytes[..whole.place + left], whole.plane));
    }
    if left < packet.given {
        let far = placed(packet, &wide(127), 127);
        cases.push(case(&far.bytes, far.before + left));
    }
    cases
}

/// Every packet at every place.
pub fn every(mut give: impl FnMut(Case)) {
    for packet in packets() {
        for distance in 1..=REACH {
            let streams = [before_stream_end, before_plane_end];
            let streams = streams.map(|before| before(&packet, distance));
            streams
                .into_iter()
                .flatten()
                .flat_map(read)
                .for_each(&mut give);
        }
        for left in 0..128 {
            cut(&packet, left).into_iter().for_each(&mut give);
        }
    }
}

/// The systematic cases: one packet at every place, by turns, where there is one that has room.
pub fn all(cases: &mut Vec<Case>) {
    let packets = packets();
    for distance in 1..=REACH {
        for before in [before_stream_end, before_plane_end] {
            let turns =
                (0..packets.len()).map(|turn| &packets[(distance * 7 + turn) % packets.len()]);
            let stream = turns.filter_map(|packet| before(packet, distance)).next();
            cases.extend(stream.into_iter().flat_map(read));
        }
    }
    for left in 0..128 {
        let longest = packets.iter().filter(|packet| packet.given == 127);
        cases.extend(longest.flat_map(|packet| cut(packet, left)));
    }
}
