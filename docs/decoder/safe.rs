//! The plane reader in safe Rust beside which the library's is measured (document 02, request xiii).
//!
//! It tests the whole stream before it writes a byte, so a refusal leaves the destination as it was,
//! with document 01's number and place. Each kind of packet has a branch of its own in both passes,
//! literals are copied and runs are filled whole, by the standard library, and nothing is allocated.

/// The longest plane.
pub const PLANE_LIMIT: usize = 900_000_000;

/// A number and a place.
pub type Refusal = (u32, usize);

/// Reads the stored channel of an input into the front of a destination. Gives the number, the place
/// inside the stored channel, and the bytes written.
#[inline(never)]
pub fn read_plane(
    input: &[u8],
    start: usize,
    stored: usize,
    plane: usize,
    code: u32,
    dest: &mut [u8],
) -> (u32, usize, usize) {
    match read(input, start, stored, plane, code, dest) {
        Ok(()) => (0, stored, plane),
        Err((number, place)) => (number, place, 0),
    }
}

fn read(
    input: &[u8],
    start: usize,
    stored: usize,
    plane: usize,
    code: u32,
    dest: &mut [u8],
) -> Result<(), Refusal> {
    if code > 1 {
        return Err((24, 0));
    }
    if plane > PLANE_LIMIT {
        return Err((26, 0));
    }
    let behind = input.get(start..);
    let content = behind.and_then(|behind| behind.get(..stored));
    let content = content.ok_or((27, 0))?;
    let dest = dest.get_mut(..plane).ok_or((20, 0))?;
    if code == 1 {
        test(content, plane)?;
        write(content, dest);
        return Ok(());
    }
    if content.len() != plane {
        return Err((25, 0));
    }
    dest.copy_from_slice(content);
    Ok(())
}

/// Whether the packets give exactly so many bytes.
pub fn test(stream: &[u8], plane: usize) -> Result<(), Refusal> {
    let mut at = 0;
    let mut left = plane;
    while at < stream.len() {
        if left == 0 {
            return Err((23, at));
        }
        let count = usize::from(stream[at]);
        let data = stream.len() - at - 1;
        if count < 128 {
            if data < count {
                return Err((22, at));
            }
            if left < count {
                return Err((23, at));
            }
            at += 1 + count;
            left -= count;
        } else {
            if count == 128 {
                return Err((21, at));
            }
            if data < 1 {
                return Err((22, at));
            }
            if left < count - 128 {
                return Err((23, at));
            }
            at += 2;
            left -= count - 128;
        }
    }
    match left {
        0 => Ok(()),
        _ => Err((22, at)),
    }
}

/// Writes the bytes of a stream that was tested.
fn write(mut stream: &[u8], mut dest: &mut [u8]) {
    while let Some((&count, rest)) = stream.split_first() {
        if count < 128 {
            let (literals, after) = rest.split_at(usize::from(count));
            let (here, behind) = dest.split_at_mut(literals.len());
            here.copy_from_slice(literals);
            stream = after;
            dest = behind;
        } else {
            let (here, behind) = dest.split_at_mut(usize::from(count - 128));
            here.fill(rest[0]);
            stream = &rest[1..];
            dest = behind;
        }
    }
}
