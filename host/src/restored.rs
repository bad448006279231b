//! A saved table, read by the library in place of the artwork.

use crate::accepted::{self, Input};
use crate::columns::Columns;
use crate::failure::Failure;
use crate::output;
use crate::psp;
use crate::psp::ffi::{ACCEPTED, ENTRY_NUMBERS};
use crate::saved;
use crate::working::Working;
use std::io::Write;

/// The numbers of a file that is taken for a saved table; none where it is taken for artwork.
pub fn table(input: &Input) -> Result<Option<Vec<u32>>, Failure> {
    if !saved::is(&input.bytes) {
        return Ok(None);
    }
    // By the bytes that are there, whatever its count says.
    let mut table = accepted::zeros(input.bytes.len() / 4)?;
    let working = Working::on("reading the saved table".to_string());
    let answer = psp::read_table(&input.bytes, &mut table);
    drop(working);
    if answer.number != ACCEPTED {
        let sentence = saved::refusal(answer.number, &input.bytes);
        return Err(Failure::Refused(sentence));
    }
    table.truncate(answer.count.saturating_mul(ENTRY_NUMBERS));
    Ok(Some(table))
}

/// Prints what is shown of a saved table, below a line that says which columns it does not hold.
pub fn print(not_held: &str, table: &Columns) -> Result<(), Failure> {
    let mut out = output::standard();
    writeln!(out, "saved table: {} are not in it", not_held)?;
    for line in table.lines() {
        writeln!(out, "{}", line)?;
    }
    out.flush()?;
    Ok(())
}
