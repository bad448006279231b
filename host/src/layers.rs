//! `psp layers`: the operator's table.

use crate::accepted::Input;
use crate::asked::{Asked, Form};
use crate::columns::{Columns, Side};
use crate::export;
use crate::failure::Failure;
use crate::found::Found;
use crate::held::Held;
use crate::holder::{Holder, Which, NOT_KNOWN};
use crate::name;
use crate::restored;
use crate::shape::sides;
use std::ffi::OsString;

pub const HELP: &str = "\
psp layers FILE [--border | --csv | --json]

Shows the layers in file order, the bottom layer first: number, name, left, top, width, height,
visible, masks. The rectangle is the saved image rectangle, the one that the layer's planes have;
with --border it is the image border rectangle. Names are shown in quotes as Windows-1252, and a
byte that cannot be seen as \\x1B. Of a refused file the layers found before its place are shown,
below a first line that says so; their masks are not known where a channel is missing.
With --csv it is the table that psp compare reads: order, name and saved rectangle under a heading,
names in the bytes of the file, but not on a terminal where it may obey them. With --json it is an
array of objects with order, name, the saved rectangle, border, visible and masks, for programs: in
UTF-8, names decoded from code page 1252, whose bytes 81, 8D, 8F, 90 and 9D, which have no
character, are \\u0081 and so on. Both show nothing of a refused file.
Of a saved table (psp save) number, width, height and masks are shown, and what it does not hold as
-, below a first line that says so; what its channels do not tell is not known. --border, --csv and
--json need the artwork.
";

pub fn run(words: &[OsString]) -> Result<(), Failure> {
    let asked = Asked::of("layers", words)?;
    let input = Input::asked("layers", &asked)?;
    if let Some(numbers) = restored::table(&input)? {
        let held = Held::of(&numbers, Which::is_layer);
        return restored::print("name, left, top and visible", &saved_table(&held));
    }
    if let Form::Csv | Form::Json = asked.form {
        return export::layers(input, asked.form);
    }
    let found = Found::of(input, Which::is_layer)?;
    let table = table(&found, asked.form == Form::Border);
    found.print(&table)
}

fn columns() -> Columns {
    Columns::new(&[
        ("layer", Side::Right),
        ("name", Side::Left),
        ("left", Side::Right),
        ("top", Side::Right),
        ("width", Side::Right),
        ("height", Side::Right),
        ("visible", Side::Left),
        ("masks", Side::Left),
    ])
}

fn table(found: &Found, border: bool) -> Columns {
    let mut table = columns();
    for holder in &found.holders {
        if let Which::Layer(number) = holder.which {
            table.row(row(number, holder, border));
        }
    }
    table
}

fn row(number: u32, layer: &Holder, border: bool) -> Vec<String> {
    let area = layer.chunk.area(0);
    let sides = sides(if border { &area.border } else { &area.saved });
    let name = layer.name.as_deref().unwrap_or_default();
    let visible = if layer.is_visible() { "yes" } else { "no" };
    let mut row = vec![number.to_string(), name::quoted(name)];
    row.extend(sides.iter().map(i64::to_string));
    row.extend([visible.to_string(), shown(layer.masks())]);
    row
}

fn shown(masks: Option<Vec<&str>>) -> String {
    match masks {
        Some(masks) if masks.is_empty() => "none".to_string(),
        Some(masks) => masks.join(", "),
        None => NOT_KNOWN.to_string(),
    }
}

/// The layers of a saved table.
fn saved_table(held: &[Held]) -> Columns {
    let mut table = columns();
    for layer in held {
        if let Which::Layer(number) = layer.which {
            let mut row = vec![number.to_string()];
            row.extend(["-", "-", "-"].map(str::to_string));
            row.extend(layer.sides());
            row.extend(["-".to_string(), shown(layer.masks.clone())]);
            table.row(row);
        }
    }
    table
}
