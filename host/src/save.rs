//! `psp save`: the table of an accepted file as a file of its own.

use crate::accepted::{self, Input};
use crate::arguments::{Arguments, Known};
use crate::destination;
use crate::failure::Failure;
use crate::psp;
use crate::psp::ffi::{ACCEPTED, ENTRY_NUMBERS, SAVED_ENTRY, SAVED_HEAD};
use crate::words::grouped;
use crate::working::Working;
use std::ffi::OsString;

pub const HELP: &str = "\
psp save FILE -o TABLE

Lists FILE and saves its table, so that the job can be opened again without the artwork; -o - writes
it to standard output. psp list, layers, alphas and compare take TABLE as their FILE and know it by
its content, whatever its name. It holds the numbers of psp list: of a layer its number, width,
height and masks, but neither name, left, top nor visible, and no pixels; the other commands need
the artwork. TABLE is, all big-endian, a 4-byte length of what follows, a version byte, a 4-byte
count of entries, and fourteen 4-byte numbers an entry. The version is 2 where a width or a height
is over 4,096, which a psp before 0.7.0 does not read, and otherwise 1.
Only an accepted file is saved: a saved table has no place for a refusal, and a part of the entries
would pass for the whole. TABLE is written beside its place and renamed when it is complete, so a
file that stood there survives a failure; FILE is never written over, but of a pipe nobody can tell
which file it comes from.
";

const LINE: &str = "save FILE -o TABLE";

pub fn run(words: &[OsString]) -> Result<(), Failure> {
    let arguments = Arguments::parse(words, &[Known::Valued("-o")])?;
    let [file] = arguments.operands(LINE)?;
    let no_out = || Failure::Use(format!("the command is psp {}", LINE));
    let out = arguments.option("-o").ok_or_else(no_out)?;
    let input = Input::artwork(&file, "save")?;
    let (answer, table) = accepted::list(&input.bytes)?;
    if answer.number != ACCEPTED {
        return Err(input.refused(&answer, &table));
    }
    destination::write(out, &[&saved(&table)?], input.identity)
}

/// The file that a table makes.
fn saved(table: &[u32]) -> Result<Vec<u8>, Failure> {
    let entries = table.len() / ENTRY_NUMBERS;
    let mut file = accepted::zeros(SAVED_HEAD + entries * SAVED_ENTRY)?;
    let shown = grouped(entries as i64);
    let _working = Working::on(format!("making the table of {} entries", shown));
    let answer = psp::write_table(table, &mut file);
    file.truncate(answer.length);
    accepted::good(answer.number, file)
}
