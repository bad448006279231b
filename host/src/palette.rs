//! `psp palette`: the palette's entries, or a grey ramp.

use crate::accepted::{self, Input, ROOM};
use crate::arguments::Arguments;
use crate::artwork::Artwork;
use crate::columns::{Columns, Side};
use crate::failure::Failure;
use crate::output;
use crate::psp;
use crate::working::Working;
use std::ffi::OsString;
use std::io::Write;

pub const HELP: &str = "\
psp palette FILE

Shows index, red, green and blue of each palette entry, or of the grey ramp for a grey image
without a palette. At depth 24 there is none.
";

pub fn run(words: &[OsString]) -> Result<(), Failure> {
    let [file] = Arguments::parse(words, &[])?.operands("palette FILE")?;
    let file = Artwork::accepted(Input::artwork(&file, "palette")?)?;
    let ramp = ramp();
    let working = Working::listing(&file.bytes);
    let view = psp::palette(&file.bytes, ROOM, &ramp);
    drop(working);
    let table = table(accepted::good(view.number, view.bytes)?);
    let mut out = output::standard();
    for line in table.lines() {
        writeln!(out, "{}", line)?;
    }
    out.flush()?;
    Ok(())
}

/// 256 greys from black to white, four bytes each.
fn ramp() -> Vec<u8> {
    (0..=255).flat_map(|grey| [grey, grey, grey, 0]).collect()
}

fn table(bytes: &[u8]) -> Columns {
    let mut table =
        Columns::new(&["index", "red", "green", "blue"].map(|title| (title, Side::Right)));
    for (index, entry) in bytes.chunks_exact(4).enumerate() {
        let mut row = vec![index.to_string()];
        row.extend(entry.iter().take(3).map(u8::to_string));
        table.row(row);
    }
    table
}
