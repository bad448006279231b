//! An independent reading of document 01 and of the requests that have landed,
//! a generator of test cases, and a comparison with another program's answers.
//!
//! Built without cargo: `rustc -O --edition 2021 src/main.rs -o reference`

mod answers;
mod case;
mod cases;
mod clipping;
mod compare;
mod genuine;
mod library;
mod opened;
mod psp;
mod random;
mod samples;
mod selftest;
mod write;

use std::io::{self, BufReader, BufWriter, Read, Write};
use std::process;

use answers::answer;
use case::Case;
use compare::Comparison;
use library::Reference;

const USAGE: &str = "\
reference cases SEED COUNT > cases        writes the first COUNT cases of a seed
reference cases SEED COUNT FROM > cases   the same from one of them on, counted from 0
reference many > cases                    writes cases of very many blocks
reference answers < cases                 prints the expected answer lines
reference compare SEED COUNT < answers    compares another program's lines with the expected ones
reference pick SEED INDEX > case          writes one case, counted from 0
reference file NAME > file.psp            writes a sample file
reference list < file.psp                 prints a file's listing as document 01 shows it
reference genuine SEED FOLDER             writes files for GIMP and ExifTool, and what they have to say
reference selftest                        runs the checks of this program
";

/// The answers that no case is long enough for.
const LONGER_THAN_A_CASE: [u32; 2] = [1, 31];

fn main() {
    let words: Vec<String> = std::env::args().skip(1).collect();
    let words: Vec<&str> = words.iter().map(String::as_str).collect();
    match run(&words) {
        Ok(true) => {}
        Ok(false) => process::exit(1),
        Err(error) => {
            eprintln!("reference: {}", error);
            process::exit(2);
        }
    }
}

/// False if something was found to differ or to fail.
fn run(words: &[&str]) -> io::Result<bool> {
    match *words {
        ["cases", seed, count] => write_cases(number(seed)?, 0, number(count)?),
        ["cases", seed, count, from] => write_cases(number(seed)?, number(from)?, number(count)?),
        ["many"] => write_many(),
        ["answers"] => print_answers(),
        ["compare", seed, count] => compare(number(seed)?, number(count)?),
        ["pick", seed, index] => write_cases(number(seed)?, number(index)?, 1),
        ["file", name] => write_sample(name),
        ["list"] => print_listing(),
        ["genuine", seed, folder] => genuine::write(number(seed)?, folder),
        ["selftest"] => Ok(selftest::report()),
        _ => Err(usage()),
    }
}

fn usage() -> io::Error {
    let samples = samples::NAMES.join(" ");
    let text = format!("these are its words\n{}sample files: {}", USAGE, samples);
    io::Error::new(io::ErrorKind::InvalidInput, text)
}

fn number(word: &str) -> io::Result<u64> {
    word.parse().map_err(|_| usage())
}

fn output() -> BufWriter<io::Stdout> {
    BufWriter::with_capacity(1 << 20, io::stdout())
}

/// So many cases behind the first ones, which are made and left out.
fn write_cases(seed: u64, first: u64, count: u64) -> io::Result<bool> {
    let mut output = output();
    let mut made = 0;
    cases::generate(seed, first.saturating_add(count), |case, _| {
        made += 1;
        if made <= first {
            return Ok(());
        }
        case.write(&mut output)
    })?;
    output.flush()?;
    Ok(true)
}

fn write_many() -> io::Result<bool> {
    let mut output = output();
    for case in cases::many::cases() {
        case.write(&mut output)?;
    }
    output.flush()?;
    Ok(true)
}

fn print_answers() -> io::Result<bool> {
    let mut input = BufReader::with_capacity(1 << 20, io::stdin());
    let mut output = output();
    while let Some(case) = Case::read(&mut input)? {
        writeln!(output, "{}", answer(&Reference, &case).line)?;
    }
    output.flush()?;
    Ok(true)
}

/// The cases are made again here, so nothing has to keep them.
fn compare(seed: u64, count: u64) -> io::Result<bool> {
    let mut report = io::stdout();
    let mut comparison = Comparison::new(&mut report);
    let mut answers = BufReader::with_capacity(1 << 20, io::stdin());
    cases::generate(seed, count, |_, like| comparison.read(like, &mut answers))?;
    comparison.end(&mut answers)?;
    comparison.finish(&LONGER_THAN_A_CASE)
}

fn write_sample(name: &str) -> io::Result<bool> {
    let picture = samples::sample(name).ok_or_else(usage)?;
    io::stdout().write_all(&picture.bytes())?;
    Ok(true)
}

/// Document 01's listing program: at most 65,536 bytes, 512 entries.
fn print_listing() -> io::Result<bool> {
    let mut input = Vec::new();
    io::stdin().take(65_537).read_to_end(&mut input)?;
    io::stdout().write_all(psp::program::listing_text(&input).as_bytes())?;
    Ok(true)
}
