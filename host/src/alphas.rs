//! `psp alphas`: the selection and the alpha channels.

use crate::accepted::Input;
use crate::asked::{Asked, Form};
use crate::columns::{Columns, Side};
use crate::export;
use crate::failure::Failure;
use crate::found::Found;
use crate::held::Held;
use crate::holder::Which;
use crate::name;
use crate::restored;
use std::ffi::OsString;

pub const HELP: &str = "\
psp alphas FILE [--border | --csv | --json]

Shows the selection and the alpha channels in file order: kind, rank, name, left, top, width,
height. The rank counts alpha channels from 0, as psp facts and psp plane take it; a selection has
neither rank nor name. The rectangle is the saved one, which the plane has; with --border it is the
one around it. Names, and what was found of a refused file, are shown as in psp layers.
With --csv and --json it is for programs, as in psp layers, with what a selection has not empty or
null; --json has the border too. psp compare does not read it.
Of a saved table (psp save) kind, rank, width and height are shown, as in psp layers.
";

pub fn run(words: &[OsString]) -> Result<(), Failure> {
    let asked = Asked::of("alphas", words)?;
    let input = Input::asked("alphas", &asked)?;
    let is_asked = |which: Which| !which.is_layer();
    if let Some(numbers) = restored::table(&input)? {
        let held = Held::of(&numbers, is_asked);
        return restored::print("name, left and top", &saved_table(&held));
    }
    if let Form::Csv | Form::Json = asked.form {
        return export::alphas(input, asked.form);
    }
    let found = Found::of(input, is_asked)?;
    let table = table(&found, asked.form == Form::Border);
    found.print(&table)
}

fn columns() -> Columns {
    Columns::new(&[
        ("kind", Side::Left),
        ("rank", Side::Right),
        ("name", Side::Left),
        ("left", Side::Right),
        ("top", Side::Right),
        ("width", Side::Right),
        ("height", Side::Right),
    ])
}

fn table(found: &Found, border: bool) -> Columns {
    let mut table = columns();
    for alpha in found.holders.iter().filter_map(export::alpha) {
        let [rank, name] = match &alpha.ranked {
            Some((rank, name)) => [rank.to_string(), name::quoted(name)],
            None => ["-", "-"].map(str::to_string),
        };
        let sides = if border {
            alpha.border
        } else {
            alpha.rectangle
        };
        let mut row = vec![alpha.kind().to_string(), rank, name];
        row.extend(sides.iter().map(i64::to_string));
        table.row(row);
    }
    table
}

/// The selection and the alpha channels of a saved table.
fn saved_table(held: &[Held]) -> Columns {
    let mut table = columns();
    for alpha in held {
        let [kind, rank] = match alpha.which {
            Which::Alpha(rank) => ["alpha".to_string(), rank.to_string()],
            _ => ["selection", "-"].map(str::to_string),
        };
        let mut row = vec![kind, rank];
        row.extend(["-", "-", "-"].map(str::to_string));
        row.extend(alpha.sides());
        table.row(row);
    }
    table
}
