//! `psp compare --all`: every file of a folder against the table beside it.

use crate::accepted::{self, Input};
use crate::collection::{self, Member, Total, Verdict};
use crate::compare;
use crate::failure::Failure;
use crate::name;
use crate::output::{self, Progress};
use crate::words::counted;
use std::ffi::{OsStr, OsString};
use std::fs;
use std::io::{self, Write};
use std::path::Path;

pub fn run(folder: &OsStr) -> Result<(), Failure> {
    let names = names(folder).map_err(|error| accepted::unreadable(folder, &error.to_string()))?;
    let members = collection::members(names);
    if members.is_empty() {
        return Err(accepted::unreadable(
            folder,
            "no .psp and no .csv file is in it",
        ));
    }
    let total = results(Path::new(folder), &members)?;
    match total.not_compared() {
        0 if total.has_differences() => Err(Failure::Different),
        0 => Ok(()),
        rest => Err(Failure::Unreadable(format!(
            "not compared: {} of {}",
            rest,
            members.len()
        ))),
    }
}

fn names(folder: &OsStr) -> io::Result<Vec<OsString>> {
    let entries = fs::read_dir(folder)?;
    entries.map(|entry| Ok(entry?.file_name())).collect()
}

/// Prints a line for each member as it is known, and the total.
fn results(folder: &Path, members: &[Member]) -> Result<Total, Failure> {
    let mut total = Total::default();
    let mut out = output::standard();
    let progress = Progress::new();
    writeln!(out, "{:<10}  file", "result")?;
    out.flush()?;
    for (at, member) in members.iter().enumerate() {
        let shown = name::file(member.name());
        progress.show(&format!("{} of {}, {}", at + 1, members.len(), shown));
        let (verdict, what) = judged(folder, member)?;
        progress.clear();
        let what = what.map_or(String::new(), |what| format!(": {}", what));
        writeln!(out, "{:<10}  {}{}", verdict.word(), shown, what)?;
        out.flush()?;
        total.add(verdict);
    }
    writeln!(out, "{}", total.line())?;
    out.flush()?;
    Ok(total)
}

/// What became of a member, and the sentence for it.
fn judged(folder: &Path, member: &Member) -> Result<(Verdict, Option<String>), Failure> {
    let (file, tables) = match member {
        Member::File(file, tables) => (folder.join(file), tables),
        Member::Table(_) => return Ok((Verdict::NoFile, None)),
    };
    let table = match tables.as_slice() {
        [] => return Ok((Verdict::NoTable, None)),
        [table] => folder.join(table),
        several => {
            let what = format!("{} stand beside it", counted(several.len(), "table"));
            return Ok((Verdict::Unreadable, Some(what)));
        }
    };
    let compared = regular(&file)
        .and_then(|_| regular(&table))
        .and_then(|_| Input::artwork(file.as_os_str(), "compare --all"))
        .and_then(|input| compare::with_artwork(input, table.as_os_str()));
    match compared {
        Ok((_, report)) if report.is_equal() => Ok((Verdict::Agreed, Some(report.counts()))),
        Ok((_, report)) => Ok((Verdict::Different, Some(report.counts()))),
        Err(failure) => of_failure(failure),
    }
}

/// A pipe would be waited for, and a folder is no file.
fn regular(path: &Path) -> Result<(), Failure> {
    let unreadable = |why: &str| accepted::unreadable(path.as_os_str(), why);
    match fs::metadata(path) {
        Ok(found) if found.is_file() => Ok(()),
        Ok(_) => Err(unreadable("it is no regular file")),
        Err(error) => Err(unreadable(&error.to_string())),
    }
}

/// What cannot be compared is a line of the table; that the table cannot be written is not.
fn of_failure(failure: Failure) -> Result<(Verdict, Option<String>), Failure> {
    match failure {
        Failure::Refused(sentence) => {
            let what = sentence.strip_prefix("refused: ").unwrap_or(&sentence);
            Ok((Verdict::Refused, Some(what.to_string())))
        }
        Failure::Absent(sentence) | Failure::Unreadable(sentence) => {
            Ok((Verdict::Unreadable, Some(sentence)))
        }
        other => Err(other),
    }
}
