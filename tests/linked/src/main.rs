//! Compares the library, linked through its C boundary, with the reference in
//! one process: the generator's cases of all kinds, listings into records and
//! counts besides, cases too large for the generator, every packet at every place
//! near an end, every change of plain blocks, tables too long to be saved, and
//! entries asked for behind very many blocks. Then what clipping and placing owe, of
//! the library alone. By other words: listings only, or sheets as large as they may
//! be.

mod large;
mod linked;
mod long;
mod many;
mod sheets;

use std::io;
use std::process;

use linked::Linked;
use reference::answers::{answer, count, records, written};
use reference::case::Case;
use reference::cases;
use reference::clipping;
use reference::compare::Comparison;
use reference::library::{Library, Reference};
use reference::psp::listing::ENTRY_NUMBERS;

const USAGE: &str = "linked SEED COUNT, linked long SEED COUNT, or linked sheets";

fn main() {
    let words: Vec<String> = std::env::args().skip(1).collect();
    let words: Vec<&str> = words.iter().map(String::as_str).collect();
    let result = match words.as_slice() {
        ["long", seed, count] => numbers(seed, count).map(|(seed, count)| long::run(seed, count)),
        ["sheets"] => Ok(sheets::run()),
        [seed, count] => numbers(seed, count).and_then(|(seed, count)| all(seed, count)),
        _ => Err(usage()),
    };
    match result {
        Ok(true) => {}
        Ok(false) => process::exit(1),
        Err(error) => {
            eprintln!("linked: {}", error);
            process::exit(2);
        }
    }
}

fn usage() -> io::Error {
    io::Error::new(io::ErrorKind::InvalidInput, USAGE)
}

fn numbers(seed: &str, count: &str) -> io::Result<(u64, u64)> {
    match (seed.parse(), count.parse()) {
        (Ok(seed), Ok(count)) => Ok((seed, count)),
        _ => Err(usage()),
    }
}

/// True if nothing differed and every answer number was reached.
fn all(seed: u64, count: u64) -> io::Result<bool> {
    let mut report = io::stdout();
    let mut comparison = Comparison::new(&mut report);
    let mut result = Ok(());
    let mut each = |case: Case| {
        if result.is_ok() {
            result = compare(&mut comparison, &case);
        }
    };
    large::each(&mut each);
    cases::edges::every(&mut each);
    cases::plain::every(&mut each);
    result?;
    longest_tables(&mut comparison)?;
    many::compare(&mut comparison)?;
    cases::generate(seed, count, |case, like| hold(&mut comparison, case, like))?;
    let same = comparison.finish(&[])?;
    Ok(clips() && same)
}

/// The longest table whose file's length four bytes can say, a little more, and
/// one entry more. All are refused before they are looked at, so nothing has to
/// hold these zeros.
fn longest_tables(comparison: &mut Comparison) -> io::Result<()> {
    const MOST: usize = 76_695_844 * ENTRY_NUMBERS;
    let table = vec![0; MOST + ENTRY_NUMBERS];
    for numbers in [MOST, MOST + ENTRY_NUMBERS - 1, MOST + ENTRY_NUMBERS] {
        for destination in [0, 100] {
            let [got, expected] = [&Linked as &dyn Library, &Reference]
                .map(|library| written(library, &table[..numbers], destination));
            comparison.hold(b'W', &expected, &got.line)?;
        }
    }
    Ok(())
}

/// Clipping in any order, of the library itself; true if every check holds.
fn clips() -> bool {
    let (mut done, mut failed) = (0, 0);
    clipping::each(&Linked, &mut |name, holds| {
        done += 1;
        if !holds {
            failed += 1;
            println!("failed: {}", name);
        }
    });
    println!("clipping: {} checks, {} failed", done, failed);
    failed == 0
}

fn compare(comparison: &mut Comparison, case: &Case) -> io::Result<()> {
    hold(comparison, case, case)
}

/// Holds a case to the answer of one that must have the same.
fn hold(comparison: &mut Comparison, case: &Case, like: &Case) -> io::Result<()> {
    let got = answer(&Linked, case);
    comparison.hold(case.kind(), &answer(&Reference, like), &got.line)?;
    if let Case::Listing { room, input } = case {
        listed_otherwise(comparison, *room as usize, input)?;
    }
    Ok(())
}

/// A listing into records beside the table, with the smaller room on either
/// side and tables that end inside an entry; and one that stores nothing.
fn listed_otherwise(comparison: &mut Comparison, room: usize, input: &[u8]) -> io::Result<()> {
    let needed = Reference.count(input, room).2 as usize;
    let room = room.min(needed + 3);
    let rest = input.len() % ENTRY_NUMBERS;
    let enough = room * ENTRY_NUMBERS + rest;
    for (numbers, slots) in [
        (enough, room + 2),
        (enough + 2 * ENTRY_NUMBERS, room),
        (enough, room / 2),
    ] {
        let got = records(&Linked, numbers, slots, input);
        let expected = records(&Reference, numbers, slots, input);
        comparison.hold(b'E', &expected, &got.line)?;
    }
    for room in [room, usize::MAX] {
        let got = count(&Linked, room, input);
        comparison.hold(b'T', &count(&Reference, room, input), &got.line)?;
    }
    Ok(())
}
