//! Reading a channel of a file: by the library, by the safe reader of docs/decoder, and by the one
//! beside it that copies too much.

#[path = "../../docs/decoder/overcopying.rs"]
mod overcopying;
#[path = "../../docs/decoder/safe.rs"]
mod safe;

use crate::clock::Clock;
use crate::files::{self, GREY_ENTRIES};
use crate::library::numbers as library;
use crate::measure::{counted, rounds, Spread};
use crate::pictures::{self, Picture};
use crate::reference::psp as reference;
use crate::sides::Answer;

const RAW: u16 = 0;
const RUN_LENGTHS: u16 = 1;

const SIDES: [u32; 5] = [16, 64, 256, 1_024, 4_096];

/// The side of the planes whose instructions are counted.
const COUNTED: u32 = 1_024;

/// Bytes that are read between two looks at the clock, where one plane has fewer.
const ENOUGH: usize = 1 << 20;

/// Who reads. Each reader is one call, and none is compiled into the loop that measures it.
const READERS: [&str; 3] = ["library", "safe", "overcopying"];

#[inline(always)]
fn read(
    reader: usize,
    input: &[u8],
    start: usize,
    stored: usize,
    plane: usize,
    code: u32,
    dest: &mut [u8],
) -> Answer {
    match reader {
        0 => {
            let read = library::read_plane(input, start, stored, plane, code, dest);
            (read.number, read.place, read.bytes)
        }
        1 => safe::read_plane(input, start, stored, plane, code, dest),
        _ => overcopying::read_plane(input, start, stored, plane, code, dest),
    }
}

/// A file, and where its one channel is stored.
struct Channel {
    file: Vec<u8>,
    start: usize,
    stored: usize,
    code: u32,
}

impl Channel {
    /// A grey picture whose channel's content is stored in that form.
    fn new(side: u32, compression: u16, content: &[u8]) -> Channel {
        let file = files::grey(side, compression, content);
        let listing = reference::listing::list(&file, GREY_ENTRIES);
        assert!(listing.accepted());
        let channel = listing.entries[GREY_ENTRIES - 1];
        Channel {
            start: channel.content_start as usize,
            stored: channel.stored_length as usize,
            code: u32::from(compression),
            file,
        }
    }

    #[inline(always)]
    fn read(&self, reader: usize, plane: usize, dest: &mut [u8]) -> Answer {
        let Channel {
            file,
            start,
            stored,
            code,
        } = self;
        read(reader, file, *start, *stored, plane, *code, dest)
    }
}

pub fn report(clock: &Clock) {
    check();
    println!(
        "| Side | Plane | Bytes stored | Library, {0} | quartiles | Safe, {0} | quartiles \
         | Safe / library | Overcopying / library |",
        clock.thousands()
    );
    println!("|--:|---|--:|--:|--:|--:|--:|--:|--:|");
    for side in SIDES {
        for Picture { name, plane } in pictures::all(side) {
            let packed = reference::planes::packed_form(&plane);
            let channel = Channel::new(side, RUN_LENGTHS, &packed);
            row(clock, side, name, &channel, &plane);
        }
        let plane = pictures::noisy(side).plane;
        row(clock, side, "raw", &Channel::new(side, RAW, &plane), &plane);
    }
    println!();
}

fn row(clock: &Clock, side: u32, name: &str, channel: &Channel, plane: &[u8]) {
    let [library, safe, overcopying] = costs(clock, channel, plane);
    let quartiles = |s: Spread| format!("{:.3} to {:.3}", s.low / 1e3, s.high / 1e3);
    println!(
        "| {side} | {name} | {} | {:.3} | {} | {:.3} | {} | {:.2} | {:.2} |",
        channel.stored,
        library.median / 1e3,
        quartiles(library),
        safe.median / 1e3,
        quartiles(safe),
        safe.median / library.median,
        overcopying.median / library.median
    );
}

/// What one reading costs. Small planes are read many times at a look, each into a destination of its
/// own; all are cleared before.
fn costs(clock: &Clock, channel: &Channel, plane: &[u8]) -> [Spread; READERS.len()] {
    let times = ENOUGH.div_ceil(plane.len());
    let mut dest = vec![0; times * plane.len()];
    let costs = rounds(clock, 1, |_, reader| {
        dest.fill(0);
        let (cost, ()) = counted(clock, || {
            for dest in dest.chunks_exact_mut(plane.len()) {
                let answer = channel.read(reader, plane.len(), dest);
                assert_eq!(answer, (0, channel.stored, plane.len()));
            }
        });
        assert!(dest.chunks_exact(plane.len()).all(|dest| dest == plane));
        cost
    });
    costs[0].map(|cost| cost.each(times))
}

/// One reader reads one plane so many times.
pub fn repeat(reader: &str, name: &str, times: &str) {
    let reader = READERS
        .iter()
        .position(|known| *known == reader)
        .expect("READER is library, safe or overcopying");
    let Picture { plane, .. } = pictures::all(COUNTED)
        .into_iter()
        .find(|picture| picture.name == name)
        .expect("PLANE is a plane's name");
    let packed = reference::planes::packed_form(&plane);
    let channel = Channel::new(COUNTED, RUN_LENGTHS, &packed);
    let mut dest = vec![0; plane.len()];
    for _ in 0..times.parse().expect("TIMES is a number") {
        let answer = channel.read(reader, plane.len(), &mut dest);
        assert_eq!(answer, (0, channel.stored, plane.len()));
    }
}

/// The answers of all readers are the reference's, and the bytes too: of short streams and of every
/// code, and of long ones that end anywhere, for planes about their length.
fn check() {
    const BYTES: [u8; 8] = [0, 1, 2, 3, 128, 129, 131, 255];
    for choice in 0..8usize.pow(4) {
        let input = [0, 3, 6, 9].map(|shift| BYTES[choice >> shift & 7]);
        for stored in 0..=5 {
            for plane in 0..=4 {
                for code in 0..=2 {
                    same(&input, 4 - stored.min(4), stored, plane, code);
                }
            }
        }
    }
    let plane = &pictures::all(32)[4].plane;
    let packed = reference::planes::packed_form(plane);
    for stored in 0..=packed.len() {
        same(&packed, 0, stored, plane.len(), 1);
        same(&packed, 0, packed.len(), stored, 1);
        let mut refused = packed.clone();
        refused[stored.min(packed.len() - 1)] = 128;
        same(&refused, 0, packed.len(), plane.len(), 1);
    }
}

fn same(input: &[u8], start: usize, stored: usize, plane: usize, code: u32) {
    for room in [plane, plane + 1, plane.saturating_sub(1)] {
        let mut expected = vec![0xAA; room];
        let (from, long, wide) = (start as u64, stored as u64, plane as u64);
        let told = reference::planes::read_plane(input, from, long, wide, code, &mut expected);
        let answer = (told.number, told.place as usize, told.bytes as usize);
        for (reader, name) in READERS.iter().enumerate() {
            let mut dest = vec![0xAA; room];
            let got = read(reader, input, start, stored, plane, code, &mut dest);
            assert_eq!(got, answer, "{name}");
            assert_eq!(dest, expected, "{name}");
        }
    }
}
