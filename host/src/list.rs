//! `psp list`: document 01's listing.

use crate::accepted::{self, Input};
use crate::arguments::Arguments;
use crate::failure::Failure;
use crate::lines;
use crate::output;
use crate::psp::ffi::{ACCEPTED, ENTRY_NUMBERS};
use crate::restored;
use crate::working::Working;
use std::ffi::OsString;
use std::io::Write;

pub const HELP: &str = "\
psp list FILE

Lists the blocks of a file in file order. The first line has answer number, place and count; each
line behind it is an entry: index, kind, level, place, bytes owned, and then
  layer, alpha    its number, from 0
  channel         number of the layer or alpha channel that it lies in (0 in a selection), bitmap,
                  channel, content start, stored length, width, height, plane length, bytes of a row
  palette, skip   content start, stored length; a skip ends with its id
What an entry lies in is the last one above it whose level is one less.
Of a refused file, the entries found before the place are listed.
Of a saved table (psp save) the lines are those of the artwork, but the place, the artwork's length,
is not in it and is shown as -. Of a saved table that is refused nothing is listed.
";

pub fn run(words: &[OsString]) -> Result<(), Failure> {
    let [file] = Arguments::parse(words, &[])?.operands("list FILE")?;
    let input = Input::read(&file)?;
    if let Some(table) = restored::table(&input)? {
        return print(&lines::saved_line(table.len() / ENTRY_NUMBERS), &table);
    }
    let (answer, table) = accepted::list(&input.bytes)?;
    print(&lines::answer_line(&answer), &table)?;
    match answer.number {
        ACCEPTED => Ok(()),
        _ => Err(input.refused(&answer, &table)),
    }
}

/// Prints a first line, and a line an entry.
fn print(first: &str, table: &[u32]) -> Result<(), Failure> {
    let mut out = output::standard();
    let working = Working::printing(table.len() / ENTRY_NUMBERS);
    writeln!(out, "{}", first)?;
    for (index, entry) in lines::entries(table).enumerate() {
        writeln!(out, "{}", lines::entry_line(index, &entry))?;
        working.done(index as u64);
    }
    out.flush()?;
    Ok(())
}
