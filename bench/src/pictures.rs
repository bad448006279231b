//! The planes that are read, packed and placed.

/// The side of the largest plane there is.
pub const SIDE: u32 = 4_096;

/// A name for the table, and the plane's bytes.
pub struct Picture {
    pub name: &'static str,
    pub plane: Vec<u8>,
}

/// Planes of so many by so many pixels, from the fewest packets to the most, or nearly so.
pub fn all(side: u32) -> Vec<Picture> {
    vec![
        picture(side, "flat", |_, _| 0x40),
        picture(side, "alternating", |x, _| (x % 2 * 255) as u8),
        pairs(side),
        noisy(side),
        photographic(side),
        halftone(side),
        short_runs(side),
        picture(side, "three and one", |x, _| u8::from(x % 4 == 3)),
    ]
}

fn picture(side: u32, name: &'static str, mut pixel: impl FnMut(u32, u32) -> u8) -> Picture {
    let mut plane = Vec::with_capacity((side * side) as usize);
    for y in 0..side {
        plane.extend((0..side).map(|x| pixel(x, y)));
    }
    Picture { name, plane }
}

/// Two and two; but the last row is flat, so that the packed form is shorter than the longest of that
/// many bytes, and has to be measured where there is no room for that one.
fn pairs(side: u32) -> Picture {
    picture(side, "pairs", |x, y| match y {
        y if y + 1 == side => 0x40,
        _ => (x / 2 % 2 * 255) as u8,
    })
}

/// Numbers that follow no rule, the same ones in each run.
fn random() -> impl FnMut() -> u64 {
    let mut state = 0x9E37_79B9_7F4A_7C15_u64;
    move || {
        state ^= state << 13;
        state ^= state >> 7;
        state ^= state << 17;
        state
    }
}

pub fn noisy(side: u32) -> Picture {
    let mut random = random();
    picture(side, "noisy", |_, _| (random() >> 56) as u8)
}

/// Slow slopes under the noise of a sensor: eight values beside each other, so that three equal ones
/// are rare and never far.
fn photographic(side: u32) -> Picture {
    let mut random = random();
    picture(side, "photographic", |x, y| {
        let noise = (random() >> 61) as u32;
        let slope = (x / 11 + y / 7) % 480;
        (slope.min(480 - slope) + noise) as u8
    })
}

/// A screen of round dots, eight pixels apart, that grow from corner to corner.
fn halftone(side: u32) -> Picture {
    let from_middle = |z: u32| {
        let twice = (2 * (z % 8)).abs_diff(7);
        twice * twice
    };
    picture(side, "halftone", |x, y| {
        let tone = (x + y) * 100 / (2 * side);
        u8::from(from_middle(x) + from_middle(y) <= tone) * 255
    })
}

/// Runs of one to eight bytes.
fn short_runs(side: u32) -> Picture {
    let mut random = random();
    let (mut left, mut byte) = (0, 0);
    picture(side, "random short runs", |_, _| {
        if left == 0 {
            let next = random();
            left = 1 + (next >> 61);
            byte = (next >> 40) as u8;
        }
        left -= 1;
        byte
    })
}
