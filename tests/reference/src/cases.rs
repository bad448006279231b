//! The cases: a fixed set of systematic ones, taken in an order that the seed
//! gives, and between them random ones, valid and damaged. A seed and a count
//! give the same cases everywhere.

pub mod alphas;
pub mod beginnings;
mod canvases;
mod channels;
mod damage;
pub mod edges;
mod faults;
mod fields;
pub mod forms;
pub mod known;
pub mod many;
pub mod named;
mod packing;
mod pictures;
pub mod places;
pub mod plain;
mod planes;
mod products;
mod rectangles;
pub mod rows;
pub mod saved;
pub mod spoiled;
mod streams;
pub mod sweeps;
mod values;
mod versions;

use std::collections::HashSet;
use std::io;

use crate::case::{Case, Stored, ROOM_LIMIT};
use crate::opened::channel_entries;
use crate::psp::listing::list;
use crate::random::Random;
use crate::samples;
use crate::write::Picture;

/// Longest input of a case.
pub const INPUT_LIMIT: usize = 60_000;

/// Every other one of so many cases is systematic, the first and the last too:
/// 228,000 cases hold all of them.
const GROUP: u64 = 15;

/// All systematic cases, each once; no seed changes them.
pub fn systematic() -> Vec<Case> {
    let mut cases = Vec::new();
    sweeps::all(&mut cases);
    products::all(&mut cases);
    known::all(&mut cases);
    rows::all(&mut cases);
    forms::all(&mut cases);
    named::all(&mut cases);
    alphas::all(&mut cases);
    places::all(&mut cases);
    beginnings::all(&mut cases);
    channels::all(&mut cases);
    streams::all(&mut cases);
    edges::all(&mut cases);
    plain::all(&mut cases);
    planes::all(&mut cases);
    packing::all(&mut cases);
    canvases::all(&mut cases);
    values::all(&mut cases);
    saved::all(&mut cases);
    versions::all(&mut cases);
    // A value tried in a field may be the one that stood there already.
    let mut seen = HashSet::new();
    cases.retain(|case| seen.insert((case.kind(), case.payload())));
    cases
}

/// Makes the cases one after another, each with the case whose answer it must
/// have: itself, or that of a file before it was overwritten.
pub fn generate(
    seed: u64,
    count: u64,
    mut give: impl FnMut(&Case, &Case) -> io::Result<()>,
) -> io::Result<()> {
    let mut random = Random::new(seed);
    let mut systematic = systematic();
    random.shuffle(&mut systematic);
    for index in 0..count {
        let (group, at) = (index / GROUP, index % GROUP);
        if at % 2 == 0 {
            let turn = group * (GROUP + 1) / 2 + at / 2;
            let case = &systematic[turn as usize % systematic.len()];
            give(case, case)?;
        } else if random.one_in(11) {
            let (case, before) = spoiled::any(&mut random);
            give(&case, &before)?;
        } else {
            let case = any(&mut random);
            give(&case, &case)?;
        }
    }
    Ok(())
}

fn any(random: &mut Random) -> Case {
    match random.below(110) {
        0..=29 => listing(random),
        30..=37 => planes::plane(random),
        38..=42 => plane_of_file(random),
        43..=52 => streams::packets(random),
        53..=59 => packing::pack(random),
        60..=68 => canvases::canvas(random),
        69..=72 => values::intersection(random),
        73..=78 => palette_view(random),
        turn @ 79..=97 => facts(random, turn),
        98..=99 => values::dots(random),
        105..=109 => places::any(random),
        _ => saved::any(random),
    }
}

fn palette_view(random: &mut Random) -> Case {
    let input = mostly_valid(random);
    let ramp = random.pick(&[1_024, 1_024, 1_024, 0, 256, 1_020, 1_023, 1_025, 2_048]);
    Case::PaletteView {
        room: room(random, &input),
        ramp,
        input,
    }
}

fn facts(random: &mut Random, turn: u64) -> Case {
    let input = mostly_valid(random);
    let room = room(random, &input);
    let k = rank(random);
    match turn {
        79..=82 => Case::ImageFacts { room, input },
        83..=88 => Case::LayerFacts { room, k, input },
        89..=91 => Case::LayerName { room, k, input },
        92..=93 => Case::SelectionFacts { room, input },
        94..=95 => Case::AlphaFacts { room, k, input },
        _ => Case::AlphaName { room, k, input },
    }
}

/// Every kind that lists an input, with facts and names of layer k and of alpha
/// channel k.
pub fn every_listing(room: u32, k: u32, input: &[u8]) -> Vec<Case> {
    let views = views_of(room, k, input);
    let input = || input.to_vec();
    let ramp = 1_024;
    let mut cases = vec![
        Case::Listing {
            room,
            input: input(),
        },
        Case::Count {
            room,
            input: input(),
        },
        Case::PaletteView {
            room,
            ramp,
            input: input(),
        },
        Case::ImageFacts {
            room,
            input: input(),
        },
        Case::SelectionFacts {
            room,
            input: input(),
        },
    ];
    cases.extend(views);
    cases
}

/// Facts and names of layer k and of alpha channel k.
pub fn views_of(room: u32, k: u32, input: &[u8]) -> [Case; 4] {
    let input = || input.to_vec();
    [
        Case::LayerFacts {
            room,
            k,
            input: input(),
        },
        Case::LayerName {
            room,
            k,
            input: input(),
        },
        Case::AlphaFacts {
            room,
            k,
            input: input(),
        },
        Case::AlphaName {
            room,
            k,
            input: input(),
        },
    ]
}

/// A listing of a file, valid or (mostly) damaged.
fn listing(random: &mut Random) -> Case {
    let input = input(random);
    Case::Listing {
        room: room(random, &input),
        input,
    }
}

/// Inputs from one picture, most of them damaged, each in its own way, with
/// rooms: a picture takes longer to make than to damage.
pub fn family(random: &mut Random, size: usize) -> Vec<(usize, Vec<u8>)> {
    let picture = picture(random);
    let input = |_| {
        let input = perhaps_damaged(random, &picture);
        (room(random, &input) as usize, input)
    };
    (0..size).map(input).collect()
}

/// A valid picture that is not too long to be a case.
fn picture(random: &mut Random) -> Picture {
    for _ in 0..8 {
        let picture = pictures::valid(random);
        let length = picture.bytes().len();
        // Long ones are kept now and then only.
        if length <= 3_000 || (length <= INPUT_LIMIT && random.one_in(6)) {
            return picture;
        }
    }
    samples::grey521()
}

/// A file, valid or (mostly) damaged.
fn input(random: &mut Random) -> Vec<u8> {
    if random.one_in(200) {
        // No file at all.
        let length = random.index(200);
        return random.bytes(length);
    }
    let picture = picture(random);
    perhaps_damaged(random, &picture)
}

fn perhaps_damaged(random: &mut Random, picture: &Picture) -> Vec<u8> {
    let mut bytes = if random.one_in(4) {
        picture.bytes()
    } else {
        damage::damaged(random, picture)
    };
    bytes.truncate(INPUT_LIMIT);
    bytes
}

fn mostly_valid(random: &mut Random) -> Vec<u8> {
    if random.one_in(4) {
        input(random)
    } else {
        picture(random).bytes()
    }
}

/// Ample room, or room near what the input needs.
fn room(random: &mut Random, input: &[u8]) -> u32 {
    if random.one_in(2) {
        return ROOM_LIMIT;
    }
    let entries = list(input, ROOM_LIMIT as usize).entries.len() as i64;
    let fewer = random.between(0, entries);
    let room = random.pick(&[
        entries,
        entries,
        entries + 1,
        entries + 2,
        entries - 1,
        fewer,
    ]);
    room.clamp(0, i64::from(ROOM_LIMIT)) as u32
}

/// The number of a layer or of an alpha channel.
fn rank(random: &mut Random) -> u32 {
    random.pick(&[0, 0, 0, 1, 1, 2, 3, 10, 63, 64, 0x8000_0000, 0xFFFF_FFFF])
}

/// A channel of a valid file, read there.
fn plane_of_file(random: &mut Random) -> Case {
    let picture = picture(random);
    let input = picture.bytes();
    let channels = channel_entries(&input, ROOM_LIMIT as usize);
    match channels.get(random.index(channels.len())) {
        Some(channel) => {
            let stored = Stored::of(channel, u32::from(picture.image.compression));
            planes::stored_plane(random, stored, input)
        }
        None => planes::plane(random),
    }
}
