//! The text that document 01's listing program prints.

use super::listing::{
    list, Entry, ALPHA_BANK, ALPHA_CHANNEL, BANK, CHANNEL, IMAGE, LAYER, PALETTE, SELECTION,
};
use super::number;

/// Standard input of the program; more gives answer 1.
pub const PROGRAM_INPUT_LIMIT: usize = 65_536;
pub const PROGRAM_ROOM: usize = 512;

pub fn listing_text(input: &[u8]) -> String {
    if input.len() > PROGRAM_INPUT_LIMIT {
        return format!("answer {} place 0 entries 0\n", number::INPUT_OVER_LIMIT);
    }
    let listing = list(input, PROGRAM_ROOM);
    let mut text = format!(
        "answer {} place {} entries {}\n",
        listing.number,
        listing.place,
        listing.entries.len()
    );
    for (index, entry) in listing.entries.iter().enumerate() {
        text.push_str(&entry_line(index, entry));
    }
    text
}

fn entry_line(index: usize, entry: &Entry) -> String {
    let numbers = entry.numbers();
    let (kind, rest): (&str, Vec<u32>) = match entry.id as u16 {
        _ if entry.skipped == 1 => (
            "skip",
            vec![entry.content_start, entry.stored_length, entry.id],
        ),
        IMAGE => ("image", vec![]),
        PALETTE => ("palette", vec![entry.content_start, entry.stored_length]),
        BANK => ("bank", vec![]),
        LAYER => ("layer", vec![entry.layer_number]),
        CHANNEL => ("channel", numbers[5..].to_vec()),
        SELECTION => ("selection", vec![]),
        ALPHA_BANK => ("alphabank", vec![]),
        ALPHA_CHANNEL => ("alpha", vec![entry.layer_number]),
        _ => ("skip", vec![]),
    };
    let mut line = format!(
        "{} {} {} {} {}",
        index, kind, entry.level, entry.header_place, entry.bytes_owned
    );
    for number in rest {
        line.push_str(&format!(" {}", number));
    }
    line.push('\n');
    line
}
