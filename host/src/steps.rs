//! `psp steps`: the listing's walk, place by place, with the bytes that decide.

use crate::accepted::{self, Input, ROOM};
use crate::arguments::{Arguments, Known};
use crate::failure::Failure;
use crate::lines;
use crate::output;
use crate::pencil::Pencil;
use crate::psp;
use crate::psp::ffi::{Listed, ACCEPTED, ENTRY_NUMBERS};
use crate::wanted::Number;
use crate::working::Working;
use std::ffi::OsString;
use std::io::Write;

pub const HELP: &str = "\
psp steps FILE [--until K]

Shows the walk behind psp list, as one would write it down with a pencil, so that its answer can be
argued line by line. A line that begins with a place tells what stands there, and whether the walk
goes on, in, out of what ends there, or stops. Below it stand the tests that were made there, in
their order, each with the place and the bytes that it looked at, and with what these must be. Where
the walk stops, the last of them is the one that failed, and nothing behind it counts. An entry has
the index that psp list gives it, and the last line is the first one of psp list.
With --until K the walk ends at entry K, from 0, and the last line is that entry's of psp list.
Where there is no entry K the whole walk is shown, the last line says so, and the status is 1.
FILE is artwork: a saved table holds none of its bytes.
";

const LINE: &str = "steps FILE [--until K]";

pub fn run(words: &[OsString]) -> Result<(), Failure> {
    let arguments = Arguments::parse(words, &[Known::Valued("--until")])?;
    let [file] = arguments.operands(LINE)?;
    let until = arguments.option("--until");
    let until = until.map(|k| Number::of(k, "K")).transpose()?;
    let input = Input::artwork(&file, "steps")?;
    match until {
        Some(k) => until_entry(&input, &k),
        None => {
            let (answer, table) = accepted::list(&input.bytes)?;
            whole(&input, answer, &table, None)
        }
    }
}

/// The walk up to entry K, which the library is asked for by itself.
fn until_entry(input: &Input, typed: &Number) -> Result<(), Failure> {
    // A table's numbers have 32 bits, and so has the index of every entry.
    let k = typed.value().map_or(usize::MAX, |k| k as usize);
    let working = Working::listing(&input.bytes);
    let asked = psp::entry_at(&input.bytes, ROOM, k);
    drop(working);
    if asked.found == 0 {
        let (_, table) = accepted::list(&input.bytes)?;
        return whole(input, asked.listed, &table, Some(typed));
    }
    let line = lines::entry_line(k, &asked.entry);
    let last = format!("this is entry {}: {}", k, line);
    print(input, &table_until(&input.bytes, k)?, None, &[last])
}

/// The table up to an entry that is there; what is behind it is not listed.
fn table_until(input: &[u8], k: usize) -> Result<Vec<u32>, Failure> {
    let mut table = accepted::zeros(k.saturating_add(1).saturating_mul(ENTRY_NUMBERS))?;
    let _working = Working::listing(input);
    psp::list(input, &mut table);
    Ok(table)
}

/// The whole walk and its answer, and that an entry is not there.
fn whole(
    input: &Input,
    answer: Listed,
    table: &[u32],
    lacking: Option<&Number>,
) -> Result<(), Failure> {
    let lacking = lacking.map(|k| k.typed());
    let lacking = lacking.map(|k| format!("no entry {}: the listing has {}", k, answer.count));
    let mut last = vec![lines::answer_line(&answer)];
    last.extend(lacking.clone());
    print(input, table, Some(answer), &last)?;
    match (answer.number, lacking) {
        (ACCEPTED, None) => Ok(()),
        (ACCEPTED, Some(sentence)) => Err(Failure::Absent(sentence)),
        _ => Err(input.refused(&answer, table)),
    }
}

fn print(
    input: &Input,
    table: &[u32],
    answer: Option<Listed>,
    last: &[String],
) -> Result<(), Failure> {
    let mut out = output::standard();
    let working = Working::printing(table.len() / ENTRY_NUMBERS);
    let mut pencil = Pencil::new(&mut out, &input.bytes);
    pencil.walk(table, answer, |done| working.done(done))?;
    for line in last {
        writeln!(out, "{}", line)?;
    }
    out.flush()?;
    Ok(())
}
