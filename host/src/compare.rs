//! `psp compare`: a table typed by hand against the file's.

use crate::accepted::{self, Input};
use crate::arguments::{Arguments, Known};
use crate::artwork::Artwork;
use crate::collect;
use crate::difference::{self, Report};
use crate::export;
use crate::failure::Failure;
use crate::held::Held;
use crate::holder::Which;
use crate::output;
use crate::restored;
use crate::typed::{self, Table};
use std::ffi::{OsStr, OsString};
use std::io::Write;

pub const HELP: &str = "\
psp compare FILE TYPED
psp compare --all FOLDER

Compares a table typed by hand with the layers of a file and shows what differs, a line for each
layer or row; the last line counts layers, rows and differences. The status is 0 if there is no
difference, 1 if there is any or the file is refused, 2 for wrong use or what cannot be read.

A row of TYPED is
  order,name,left,top,width,height
The order is the layer number: it counts from 0, and the bottom layer comes first. The rectangle is
the saved image rectangle. psp layers FILE --csv prints the very form.
A heading may stand first: these six words, in any order and letter case. Columns are then read by
their titles. Any other first line is a row. A row that cannot be read is a difference.
Fields are separated by commas, semicolons or tabs: as a line sep=; says, or else as the heading
or the first row has them. Lines end in CRLF, CR or LF. Blank rows, and empty columns to the right,
do not count. A field with a separator, a quote or a line end is quoted, its quotes written twice.

Names in the file are bytes, of Windows code page 1252 as a rule. A table in UTF-8 or UTF-16 begins
with a byte order mark, and its names are compared as code page 1252; one with other characters is
compared as its bytes in UTF-8, and that is said. A table without a mark is compared byte by byte.

FILE may be a saved table (psp save). Order, width and height are then compared, and name, left and
top are not, since a saved table does not hold them: the last line says so, and the status is 0 if
nothing that was compared differs. A row that cannot be read is a difference here too.

--all compares each X.psp of FOLDER with the X.csv beside it, and shows a line a file: agreed,
different, refused, no table, unreadable (the file or its table), or no file for a table alone; then
the total. The status is 0 if every file agreed, 1 if every file was compared and any is different,
2 if any could not be compared: refused, unreadable, without a table, or a table without a file. A
saved table is no artwork and counts as unreadable.
";

pub fn run(words: &[OsString]) -> Result<(), Failure> {
    let arguments = Arguments::parse(words, &[Known::Flag("--all")])?;
    if arguments.option("--all").is_some() {
        let [folder] = arguments.operands("compare --all FOLDER")?;
        return collect::run(&folder);
    }
    let [file, table] = arguments.operands("compare FILE TYPED")?;
    if file == "-" && table == "-" {
        return Err(Failure::Use(
            "only one of FILE and TYPED may be -".to_string(),
        ));
    }
    let (said, report) = compared(&file, &table)?;
    let mut out = output::standard();
    for line in said.iter().chain(&report.lines) {
        writeln!(out, "{}", line)?;
    }
    writeln!(out, "{}", report.closing())?;
    out.flush()?;
    if report.is_equal() {
        Ok(())
    } else {
        Err(Failure::Different)
    }
}

/// What is said on how a table was read, and how it differs from the file's.
type Compared = (Vec<String>, Report);

fn compared(file: &OsStr, table: &OsStr) -> Result<Compared, Failure> {
    let input = Input::read(file)?;
    match restored::table(&input)? {
        Some(numbers) => with_saved(&numbers, table),
        None => with_artwork(input, table),
    }
}

pub fn with_artwork(input: Input, table: &OsStr) -> Result<Compared, Failure> {
    let layers = export::compared(&Artwork::accepted(input)?)?;
    let typed = typed(table)?;
    Ok((typed.said, difference::report(&layers, &typed.rows)))
}

fn with_saved(numbers: &[u32], table: &OsStr) -> Result<Compared, Failure> {
    let layers = Held::of(numbers, Which::is_layer);
    let sizes: Vec<_> = layers.iter().map(|layer| layer.size).collect();
    let typed = typed(table)?;
    let report = difference::of_sizes(&sizes, &typed.rows);
    Ok((vec![typed.said_of_fields], report))
}

fn typed(table: &OsStr) -> Result<Table, Failure> {
    let text = accepted::read(table)?;
    typed::table(&text).map_err(|why| accepted::unreadable(table, &why))
}
