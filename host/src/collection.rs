//! The files of a folder and the tables beside them, and what became of each.

use crate::words::counted;
use std::collections::BTreeMap;
use std::ffi::{OsStr, OsString};
use std::path::Path;

/// A file with the tables of its name, or a table without a file.
#[derive(Clone, Debug, PartialEq, Eq)]
pub enum Member {
    File(OsString, Vec<OsString>),
    Table(OsString),
}

impl Member {
    pub fn name(&self) -> &OsStr {
        match self {
            Member::File(name, _) | Member::Table(name) => name,
        }
    }
}

/// The members among the names of a folder, sorted by the bytes of their names. The extensions psp
/// and csv may have any letter case; what stands before them must be the same.
pub fn members(names: Vec<OsString>) -> Vec<Member> {
    let mut names_of: BTreeMap<OsString, [Vec<OsString>; 2]> = BTreeMap::new();
    for name in names {
        let path = Path::new(&name);
        let kinds = ["psp", "csv"].map(|kind| has_extension(path, kind));
        let stem = path.file_stem().map(OsStr::to_os_string);
        if let (Some(stem), Some(kind)) = (stem, kinds.iter().position(|&is_it| is_it)) {
            let both = names_of.entry(stem).or_default();
            both.iter_mut()
                .skip(kind)
                .take(1)
                .for_each(|names| names.push(name.clone()));
        }
    }
    let mut members = Vec::new();
    for [files, mut tables] in names_of.into_values() {
        tables.sort();
        if files.is_empty() {
            members.extend(tables.into_iter().map(Member::Table));
        } else {
            let with_tables = |file| Member::File(file, tables.clone());
            members.extend(files.into_iter().map(with_tables));
        }
    }
    members.sort_by(|one, other| one.name().cmp(other.name()));
    members
}

fn has_extension(path: &Path, extension: &str) -> bool {
    let found = path.extension().unwrap_or_default();
    found.eq_ignore_ascii_case(extension)
}

/// What became of a member.
#[derive(Clone, Copy, Debug, PartialEq, Eq)]
pub enum Verdict {
    Agreed,
    Different,
    Refused,
    NoTable,
    NoFile,
    Unreadable,
}

impl Verdict {
    pub fn word(self) -> &'static str {
        match self {
            Verdict::Agreed => "agreed",
            Verdict::Different => "different",
            Verdict::Refused => "refused",
            Verdict::NoTable => "no table",
            Verdict::NoFile => "no file",
            Verdict::Unreadable => "unreadable",
        }
    }
}

/// The verdicts of a folder.
#[derive(Default)]
pub struct Total(Vec<Verdict>);

impl Total {
    pub fn add(&mut self, verdict: Verdict) {
        self.0.push(verdict);
    }

    fn count(&self, verdict: Verdict) -> usize {
        self.0.iter().filter(|&&found| found == verdict).count()
    }

    pub fn has_differences(&self) -> bool {
        self.count(Verdict::Different) > 0
    }

    /// How many could not be compared.
    pub fn not_compared(&self) -> usize {
        self.0.len() - self.count(Verdict::Agreed) - self.count(Verdict::Different)
    }

    pub fn line(&self) -> String {
        use Verdict::*;
        let files = self.0.len() - self.count(NoFile);
        let parts = [Agreed, Different, Refused, NoTable, Unreadable];
        let parts = parts.map(|part| format!("{} {}", self.count(part), part.word()));
        let tables = counted(self.count(NoFile), "table");
        let files = counted(files, "file");
        format!(
            "total: {}: {}; {} without a file",
            files,
            parts.join(", "),
            tables
        )
    }
}

#[cfg(test)]
mod tests {
    use super::*;

    fn of(names: &[&str]) -> Vec<Member> {
        members(names.iter().map(OsString::from).collect())
    }

    fn file(name: &str, tables: &[&str]) -> Member {
        Member::File(name.into(), tables.iter().map(OsString::from).collect())
    }

    #[test]
    fn files_stand_beside_tables_of_their_name() {
        let found = of(&[
            "b.csv", "b.psp", "a.PSP", "c.Csv", "a.csv", "a.txt", "a", ".psp",
        ]);
        let expected = [
            file("a.PSP", &["a.csv"]),
            file("b.psp", &["b.csv"]),
            Member::Table("c.Csv".into()),
        ];
        assert_eq!(found, expected);
    }

    #[test]
    fn names_are_sorted_as_bytes() {
        let found = of(&["é.psp", "b.psp", "B.psp", "a-1.csv", "a.psp"]);
        let names: Vec<&OsStr> = found.iter().map(Member::name).collect();
        assert_eq!(names, ["B.psp", "a-1.csv", "a.psp", "b.psp", "é.psp"]);
    }

    #[test]
    fn every_table_of_a_name_is_kept() {
        let found = of(&["a.psp", "a.csv", "a.CSV", "a.b.csv"]);
        let expected = [
            Member::Table("a.b.csv".into()),
            file("a.psp", &["a.CSV", "a.csv"]),
        ];
        assert_eq!(found, expected);
    }

    #[test]
    fn the_total_counts_every_verdict() {
        let mut total = Total::default();
        assert_eq!(total.not_compared(), 0);
        for verdict in [Verdict::Agreed, Verdict::Different, Verdict::NoFile] {
            total.add(verdict);
        }
        assert!(total.has_differences());
        assert_eq!(total.not_compared(), 1);
        let expected = "total: 2 files: 1 agreed, 1 different, 0 refused, 0 no table, \
            0 unreadable; 1 table without a file";
        assert_eq!(total.line(), expected);
    }
}
