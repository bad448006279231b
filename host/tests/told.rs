//! Every refusal by 8 is told by its field: over sample files of the current folder, each with one
//! byte changed at each of its places. Built and run by host/check.

extern crate psp as library;

// Here only some of what they have is called.
#[allow(dead_code)]
#[path = "../src"]
mod command {
    pub mod fields;
    pub mod holder;
    pub mod judged;
    pub mod lines;
    pub mod name;
    pub mod named;
    pub mod shape;
    pub mod words;
}
use command::*;

/// The library, under the name that the command's modules use.
mod psp {
    pub use library::ffi;
}

use library::ffi::{ENTRY_NUMBERS, WRONG_FIELD};
use std::fs;

/// The fields that are judged: how the words for them begin, and document 000's names.
const NAMES: [(&str, &[&str]); 5] = [
    (
        "image block, ",
        &[
            "image width",
            "image height",
            "resolution metric",
            "compression type",
            "bit depth",
            "plane count",
            "color count",
            "greyscale flag",
            "layer count",
        ],
    ),
    ("palette block, ", &["palette entry count"]),
    (
        "layer ",
        &[
            "layer type",
            "image rectangle",
            "saved image rectangle",
            "mask rectangle",
            "saved mask rectangle",
            "blend range count",
            "count of bitmaps",
            "channel count",
            "uncompressed channel length",
            "bitmap type",
            "channel type",
        ],
    ),
    (
        "selection, ",
        &[
            "selection rectangle",
            "saved selection rectangle",
            "selection bitmap count",
            "channel count",
            "uncompressed channel length",
            "bitmap type",
            "channel type",
        ],
    ),
    (
        "alpha channel ",
        &[
            "alpha channel rectangle",
            "saved alpha channel rectangle",
            "alpha channel bitmap count",
            "channel count",
            "uncompressed channel length",
            "bitmap type",
            "channel type",
        ],
    ),
];

/// The words for a wrong field, if it is one that an input is refused for.
fn told(input: &[u8], table: &mut [u32]) -> Option<String> {
    let answer = library::numbers::list(input, table);
    if answer.number != WRONG_FIELD {
        return None;
    }
    let listed = &table[..answer.count * ENTRY_NUMBERS];
    let words = named::field(answer.place, listed, input);
    Some(words.expect("the words for a field").0)
}

#[test]
fn every_wrong_field_has_its_words() {
    let fields = NAMES
        .iter()
        .flat_map(|(block, names)| names.iter().map(move |name| (block, name)));
    let mut unseen: Vec<_> = fields.collect();
    let mut table = [0; 64 * ENTRY_NUMBERS];
    for file in [
        "mug", "greys", "bits4", "skips", "palette", "grey521", "alphas", "early",
    ] {
        let whole = fs::read(format!("{}.psp", file)).expect("a sample");
        for place in 0..whole.len() {
            let mut input = whole.clone();
            for byte in [0, 1, 2, 6, 0x7F, 0x80, 0xFF] {
                input[place] = byte;
                let words = told(&input, &mut table).unwrap_or_default();
                let is_told = |block: &str, name: &str| {
                    words.starts_with(block) && words.contains(&format!(", {} ", name))
                };
                unseen.retain(|(block, name)| !is_told(block, name));
            }
        }
    }
    assert_eq!(unseen, []);
}
