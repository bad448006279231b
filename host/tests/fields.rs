//! What the command shows of an image, of layers, selections and alpha channels is what the library's
//! views show, over the sample files of the current folder and their beginnings, of which the views
//! show nothing. Built and run by host/check.

extern crate psp as library;

// Here only what is found is asked for.
#[allow(dead_code)]
#[path = "../src"]
mod command {
    pub mod accepted;
    pub mod answer;
    pub mod arguments;
    pub mod artwork;
    pub mod asked;
    pub mod blocks;
    pub mod buffer;
    pub mod failure;
    pub mod fields;
    pub mod holder;
    pub mod identity;
    pub mod judged;
    pub mod lines;
    pub mod name;
    pub mod named;
    pub mod output;
    pub mod saved;
    pub mod shape;
    pub mod words;
    pub mod working;
}
use command::*;

/// The library with document 01's numbers, under the name that the command's modules use.
mod psp {
    pub use library::ffi;
    pub use library::numbers::*;
}

use crate::accepted::Input;
use crate::artwork::Artwork;
use crate::holder::{Chunk, Holder, Which};
use std::fs;

const ROOM: usize = usize::MAX;

/// An input as the command has it, and the answer's number.
fn listed(bytes: &[u8]) -> (u32, Artwork) {
    let (answer, table) = accepted::list(bytes).expect("memory");
    let input = Input {
        bytes: bytes.to_vec(),
        identity: None,
        size: None,
    };
    (answer.number, Artwork::listed(input, &table))
}

fn holders(file: &Artwork) -> Vec<Holder> {
    file.holders_of(|_| true).expect("what is listed")
}

/// Compares what is found of a beginning with the views of the whole file; every field is in the text
/// of a chunk, and a NaN's bits beside it. Gives how many hold planes.
fn compare(beginning: &Artwork, whole: &[u8]) -> usize {
    if let Some(found) = beginning.image() {
        let shown = psp::image_facts(whole, ROOM).image;
        assert_eq!(format!("{:?}", found), format!("{:?}", shown));
    }
    let holders = holders(beginning);
    for found in &holders {
        let (chunk, name) = shown(found.which, whole);
        assert_eq!(format!("{:?}", found.chunk), format!("{:?}", chunk));
        assert_eq!(found.name.as_deref(), name);
    }
    holders.len()
}

/// What the views show of a layer, a selection or an alpha channel.
fn shown(which: Which, whole: &[u8]) -> (Chunk, Option<&[u8]>) {
    match which {
        Which::Layer(k) => (
            Chunk::Layer(psp::layer_facts(whole, ROOM, k).layer),
            Some(psp::name(whole, ROOM, k).bytes),
        ),
        Which::Selection => {
            let selection = psp::selection_facts(whole, ROOM).selection;
            (Chunk::Selection(selection), None)
        }
        Which::Alpha(k) => (
            Chunk::Alpha(psp::alpha_facts(whole, ROOM, k).alpha),
            Some(psp::alpha_name(whole, ROOM, k).bytes),
        ),
    }
}

/// The sample files that are accepted, or refused, but for those whose length alone is tried.
fn samples(are_accepted: bool) -> Vec<Vec<u8>> {
    let paths = fs::read_dir(".").expect("a folder").flatten();
    let paths = paths.map(|entry| entry.path());
    let samples = paths.filter(|path| path.extension().map_or(false, |end| end == "psp"));
    let short = samples.filter(|path| path.metadata().map_or(false, |data| data.len() < 1 << 20));
    let bytes = short.map(|path| fs::read(path).expect("a file"));
    let asked = bytes.filter(|bytes| (listed(bytes).0 == 0) == are_accepted);
    asked.collect()
}

#[test]
fn every_accepted_sample_has_the_fields_that_the_views_show() {
    let samples = samples(true);
    assert!(samples.len() >= 8, "{} samples", samples.len());
    let [mut selections, mut alphas] = [0; 2];
    for whole in &samples {
        let (number, file) = listed(whole);
        assert_eq!(number, 0);
        assert!(file.image().is_some() && file.there().any(Which::is_layer));
        compare(&file, whole);
        for which in file.there() {
            selections += usize::from(which == Which::Selection);
            alphas += usize::from(matches!(which, Which::Alpha(_)));
        }
    }
    assert!(selections >= 2 && alphas >= 4, "{} {}", selections, alphas);
}

/// Every beginning of the shorter ones, and some of the others.
#[test]
fn a_beginning_has_the_fields_of_the_whole() {
    let mut refused = 0;
    for whole in samples(true).iter().filter(|whole| whole.len() < 10_000) {
        let step = if whole.len() < 2_000 { 1 } else { 131 };
        let mut found = 0;
        for length in (0..whole.len()).step_by(step) {
            let (number, file) = listed(&whole[..length]);
            refused += usize::from(number != 0 && file.image().is_some());
            let before = found;
            found = compare(&file, whole);
            // More input takes none of them back.
            assert!(found >= before);
        }
    }
    assert!(refused > 5_000, "{} beginnings", refused);
}

/// Whatever they are refused for. Here the bytes themselves are looked at.
#[test]
fn a_refused_sample_shows_all_that_is_listed() {
    let mut seen = 0;
    for bytes in samples(false) {
        let (_, file) = listed(&bytes);
        let holders = holders(&file);
        assert_eq!(holders.len(), file.there().count());
        for (holding, found) in file.holdings().zip(&holders) {
            let chunk = &bytes[holding.entry.place as usize + fields::HEADER..];
            let (name, counted) = match found.which {
                Which::Layer(_) => (chunk[..256].split(|&byte| byte == 0).next(), 373),
                Which::Selection => (None, 34),
                Which::Alpha(_) => (chunk[..256].split(|&byte| byte == 0).next(), 290),
            };
            assert_eq!(found.name.as_deref(), name);
            let channels = [chunk[counted], chunk[counted + 1]];
            assert_eq!(found.chunk.channels(), u16::from_le_bytes(channels));
            seen += 1;
        }
    }
    assert!(seen > 50, "{} of refused samples", seen);
}
