//! Systematic cases over stored channels: every channel of the samples, read
//! where it stands and placed where its layer says, and streams cut and spoilt
//! at every byte.

use super::{every_listing, sweeps};
use crate::case::{Case, Stored, ROOM_LIMIT};
use crate::opened::{channel_entries, open};
use crate::psp::listing::Entry;
use crate::psp::planes::packed_form;
use crate::samples;
use crate::write::{Form, Picture};

/// Count bytes around everything that they can mean.
const COUNTS: [u8; 6] = [0, 1, 127, 128, 129, 255];

pub fn all(cases: &mut Vec<Case>) {
    for sample in sweeps::bases() {
        of_file(&sample, cases);
    }
    of_file(&samples::mug(), cases);
    for sample in sweeps::with_areas() {
        of_file(&sample, cases);
        layer_by_layer(&sample, cases);
    }
    for form in Form::BOTH {
        layer_by_layer(&samples::narrow_mug(form), cases);
    }
    cut_streams(cases);
}

/// A file listed, each of its channels read, and each plane placed with the
/// row of its entry on a canvas of the image's size. The checks of this program
/// hold the canvases of both forms to each other.
fn layer_by_layer(sample: &Picture, cases: &mut Vec<Case>) {
    let input = sample.bytes();
    cases.extend(every_listing(ROOM_LIMIT, 0, &input));
    let file = match open(&input, ROOM_LIMIT as usize) {
        Ok(file) => file,
        Err(_) => return,
    };
    for channel in &file.channels {
        cases.push(Case::Plane {
            stored: channel.stored,
            destination: channel.entry.plane_length,
            input: input.clone(),
        });
        cases.push(Case::Canvas {
            placing: file.placing(channel),
            canvas: vec![0; file.pixels()],
            plane: channel.plane.clone(),
        });
    }
}

/// Each channel with each code, and destinations one short, exact and longer;
/// of the whole file, and of its beginning up to the channel's end.
fn of_file(sample: &Picture, cases: &mut Vec<Case>) {
    let input = sample.bytes();
    for entry in &channel_entries(&input, ROOM_LIMIT as usize) {
        let end = (entry.content_start + entry.stored_length) as usize;
        for arrived in [&input[..end], &input[..]] {
            of_entry(entry, arrived, cases);
        }
    }
}

fn of_entry(entry: &Entry, input: &[u8], cases: &mut Vec<Case>) {
    for code in 0..3 {
        let stored = Stored::of(entry, code);
        let plane = entry.plane_length;
        for destination in [plane.saturating_sub(1), plane, plane + 7] {
            cases.push(Case::Plane {
                stored,
                destination,
                input: input.to_vec(),
            });
        }
    }
}

/// A plane of runs and literals, short and long, next to each other.
fn mixed() -> Vec<u8> {
    let mut plane = vec![1, 2, 2, 3, 3, 3];
    plane.extend(vec![4; 130]);
    plane.extend(0..140);
    plane.extend(vec![9; 254]);
    plane
}

/// Every beginning of a stream, and every byte of it as another count: at a
/// packet's start the stream changes its sense, elsewhere only its bytes.
fn cut_streams(cases: &mut Vec<Case>) {
    let plane = mixed();
    let whole = packed_form(&plane);
    let mut push = |stream: Vec<u8>| {
        cases.push(Case::Packets {
            plane: plane.len() as u64,
            destination: plane.len() as u32 + 2,
            stream,
        });
    };
    for at in 0..whole.len() {
        push(whole[..at].to_vec());
        for count in COUNTS {
            let mut spoilt = whole.clone();
            spoilt[at] = count;
            push(spoilt);
        }
    }
}
