//! A second plane reader, beside the safe one, for the distance to the best that we know. Far from the
//! ends of stream and plane it passes over the tests that cannot fail there, and writes whole blocks of
//! 16 and 32 bytes by pointer, more than a packet has: the packets behind overwrite the rest. Like the
//! safe one it tests the whole stream before it writes a byte, and answers the same.

use super::safe;

/// The most that one packet reads or writes, a block that it has begun included.
const REACH: usize = 160;

/// As `safe::read_plane`. What is not a stream of packets is read there.
#[inline(never)]
pub fn read_plane(
    input: &[u8],
    start: usize,
    stored: usize,
    plane: usize,
    code: u32,
    dest: &mut [u8],
) -> (u32, usize, usize) {
    let content = input
        .get(start..)
        .and_then(|behind| behind.get(..stored))
        .filter(|_| code == 1);
    match (content, dest.get_mut(..plane)) {
        (Some(content), Some(here)) if plane <= safe::PLANE_LIMIT => match test(content, plane) {
            Ok(()) => {
                write(content, here);
                (0, stored, plane)
            }
            Err((number, place)) => (number, place, 0),
        },
        _ => safe::read_plane(input, start, stored, plane, code, dest),
    }
}

/// Whether the packets give exactly so many bytes.
fn test(stream: &[u8], plane: usize) -> Result<(), safe::Refusal> {
    let (mut at, mut done) = (0, 0);
    let last = stream.len().saturating_sub(127);
    let full = plane.saturating_sub(126);
    // SAFETY: a place below `last` is inside the stream.
    let count_at = |at: usize| usize::from(unsafe { *stream.get_unchecked(at) });
    while at < last && done < full {
        let count = count_at(at);
        if count > 128 {
            at += 2;
            done += count - 128;
        } else if count < 127 {
            at += 1 + count;
            done += count;
        } else if count == 128 {
            break;
        } else {
            // Packets of 127 literals, whose places do not wait for the counts before them.
            while at < last && done < full && count_at(at) == 127 {
                at += 128;
                done += 127;
            }
        }
    }
    safe::test(&stream[at..], plane - done).map_err(|(number, place)| (number, at + place))
}

/// Writes the bytes of a stream that was tested, and that gives as many as the destination has.
fn write(stream: &[u8], dest: &mut [u8]) {
    let (mut at, mut out) = (0, 0);
    let last = stream.len().saturating_sub(REACH);
    let full = dest.len().saturating_sub(REACH);
    while at < last && out < full {
        // SAFETY: at most REACH bytes are read and written, and both slices have as many from here on.
        unsafe {
            let count = usize::from(*stream.get_unchecked(at));
            let from = stream.as_ptr().add(at + 1);
            let to = dest.as_mut_ptr().add(out);
            if count < 128 {
                blocks::<32>(count, |block| {
                    to.add(block)
                        .cast::<[u8; 32]>()
                        .write_unaligned(from.add(block).cast::<[u8; 32]>().read_unaligned());
                });
                at += 1 + count;
                out += count;
            } else {
                let filled = [*from; 16];
                blocks::<16>(count - 128, |block| {
                    to.add(block).cast::<[u8; 16]>().write_unaligned(filled)
                });
                at += 2;
                out += count - 128;
            }
        }
    }
    rest(&stream[at..], &mut dest[out..]);
}

/// Blocks that begin below a count, and one at least.
#[inline(always)]
fn blocks<const SIZE: usize>(count: usize, mut write: impl FnMut(usize)) {
    let mut block = 0;
    loop {
        write(block);
        block += SIZE;
        if count <= block {
            return;
        }
    }
}

/// The packets near an end, without a byte too many.
fn rest(stream: &[u8], dest: &mut [u8]) {
    let (mut at, mut out) = (0, 0);
    while at < stream.len() {
        let count = usize::from(stream[at]);
        if count < 128 {
            dest[out..out + count].copy_from_slice(&stream[at + 1..at + 1 + count]);
            at += 1 + count;
            out += count;
        } else {
            dest[out..out + count - 128].fill(stream[at + 1]);
            at += 2;
            out += count - 128;
        }
    }
}
