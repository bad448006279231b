//! Tests of the whole comparison: a true table in every dialect is equal, and a thousand tables
//! that are not true are different.

use crate::csv;
use crate::difference::{self, Report};
use crate::heading::TITLES;
use crate::name;
use crate::table::Layer;
use crate::typed;

/// A row as it is typed: order, name, left, top, width, height; the name in Windows-1252.
type Cells = [Vec<u8>; 6];

fn layer(name: &[u8], rectangle: [i64; 4]) -> Layer {
    Layer {
        name: name.to_vec(),
        rectangle,
    }
}

/// The layers of samples/mug.psp.
fn mug() -> Vec<Layer> {
    vec![
        layer(b"Underglaze", [0, 0, 96, 64]),
        layer(b"Layer 2", [0, 6, 96, 4]),
        layer(b"Layer 3", [0, 54, 96, 4]),
        layer(b"White", [8, 12, 80, 40]),
        layer(b"Blue", [20, 14, 56, 36]),
        layer(b"Red", [36, 20, 24, 26]),
        layer(b"Layer 9", [88, 20, 20, 24]),
        layer(b"Layer 10", [-8, -4, 24, 12]),
        layer(b"Gold", [0, 0, 96, 4]),
        layer(b"Outline", [16, 12, 64, 40]),
        layer(b"Flux", [20, 14, 56, 36]),
    ]
}

/// Names that a table has to quote, that look like numbers or headings, and one that has every byte
/// a name can have.
fn odd() -> Vec<Layer> {
    let every: Vec<u8> = (1..=255).collect();
    vec![
        layer(b"", [0, 0, 0, 0]),
        layer(
            b"Base, white; gold\tand \"red\"",
            [-32768, -32768, 30000, 30000],
        ),
        layer(b"two\r\nlines\rand\nthree", [1, 2, 3, 4]),
        layer(b" Caf\xE9 \x80\x81 ", [1, 2, 3, 4]),
        layer(b"order,name,left,top,width,height", [5, 5, 5, 5]),
        layer(b"7", [7, 7, 7, 7]),
        layer(b"sep=;", [0, 0, 1, 1]),
        layer(&every, [32767, 32767, 0, 0]),
    ]
}

/// Layers that are nearly alike, so that little tells one from another.
fn alike() -> Vec<Layer> {
    (0..5).map(|k| layer(b"Layer", [0, 0, 9, k / 2])).collect()
}

fn samples() -> Vec<Vec<Layer>> {
    let one = vec![layer(b"\xFF", [0, 0, 1, 1])];
    let genuine: Vec<Layer> = [2, 10, 1, 11, 3, 9, 4, 8, 5, 7, 6]
        .iter()
        .map(|k| layer(format!("Layer {}", k).as_bytes(), [k % 5, k % 3, 6, 4]))
        .collect();
    vec![mug(), odd(), alike(), one, genuine]
}

fn true_rows(layers: &[Layer]) -> Vec<Cells> {
    let row = |(order, layer): (usize, &Layer)| {
        let [left, top, width, height] = layer.rectangle.map(|side| side.to_string().into_bytes());
        let order = order.to_string().into_bytes();
        [order, layer.name.clone(), left, top, width, height]
    };
    layers.iter().enumerate().map(row).collect()
}

/// How a table is written.
#[derive(Clone, Copy, Debug)]
struct Dialect {
    separator: u8,
    line_end: &'static str,
    encoding: usize,
    /// None, as documented, or in capitals and with spaces.
    heading: usize,
    columns: [usize; 6],
    quoted: bool,
    blank_rows: bool,
    empty_columns: usize,
    sep_line: bool,
}

const ENCODINGS: usize = 4;

impl Dialect {
    fn write(&self, rows: &[Cells]) -> Vec<u8> {
        let mut text = Vec::new();
        if self.sep_line {
            text.extend(b"sep=");
            text.push(self.separator);
            text.extend(self.line_end.as_bytes());
        }
        self.blank(&mut text);
        if self.heading > 0 {
            let titles = TITLES.map(|title| match self.heading {
                1 => title.as_bytes().to_vec(),
                _ => format!(" {} ", title.to_uppercase()).into_bytes(),
            });
            self.row(&titles, &mut text);
            self.blank(&mut text);
        }
        for row in rows {
            self.row(row, &mut text);
        }
        self.blank(&mut text);
        self.encode(&text)
    }

    fn blank(&self, text: &mut Vec<u8>) {
        if self.blank_rows {
            text.extend(self.line_end.as_bytes());
            text.extend([self.separator; 5]);
            text.extend(self.line_end.as_bytes());
        }
    }

    fn row(&self, cells: &Cells, text: &mut Vec<u8>) {
        for (at, &column) in self.columns.iter().enumerate() {
            if at > 0 {
                text.push(self.separator);
            }
            text.extend(if self.quoted {
                csv::quoted(&cells[column])
            } else {
                csv::written(&cells[column])
            });
        }
        text.extend(vec![self.separator; self.empty_columns]);
        text.extend(self.line_end.as_bytes());
    }

    fn encode(&self, text: &[u8]) -> Vec<u8> {
        let characters = format!("\u{FEFF}{}", name::decoded(text));
        let units = characters.encode_utf16();
        match self.encoding {
            0 => text.to_vec(),
            1 => characters.into_bytes(),
            2 => units.flat_map(u16::to_le_bytes).collect(),
            _ => units.flat_map(u16::to_be_bytes).collect(),
        }
    }
}

const PLAIN: Dialect = Dialect {
    separator: b',',
    line_end: "\n",
    encoding: 0,
    heading: 0,
    columns: [0, 1, 2, 3, 4, 5],
    quoted: false,
    blank_rows: false,
    empty_columns: 0,
    sep_line: false,
};

/// Every dialect; a heading has its columns as documented, reversed or mixed.
fn dialects() -> Vec<Dialect> {
    let mut dialects = vec![PLAIN];
    dialects = each(dialects, b",;\t", |d, separator| Dialect { separator, ..d });
    dialects = each(dialects, &["\r\n", "\n", "\r"], |d, line_end| Dialect {
        line_end,
        ..d
    });
    dialects = each(dialects, &[0, 1, 2, 3], |d, encoding| Dialect {
        encoding,
        ..d
    });
    dialects = each(dialects, &[false, true], |d, quoted| Dialect {
        quoted,
        ..d
    });
    dialects = each(dialects, &[false, true], |d, blank_rows| Dialect {
        blank_rows,
        ..d
    });
    dialects = each(dialects, &[0, 3], |d, empty_columns| Dialect {
        empty_columns,
        ..d
    });
    dialects = each(dialects, &[false, true], |d, sep_line| Dialect {
        sep_line,
        ..d
    });
    let orders = [[0, 1, 2, 3, 4, 5], [5, 4, 3, 2, 1, 0], [1, 3, 0, 5, 2, 4]];
    let headed = each(dialects.clone(), &[1, 2], |d, heading| Dialect {
        heading,
        ..d
    });
    dialects.extend(each(headed, &orders, |d, columns| Dialect { columns, ..d }));
    dialects
}

fn each<T: Copy>(of: Vec<Dialect>, values: &[T], with: fn(Dialect, T) -> Dialect) -> Vec<Dialect> {
    let all = |dialect: Dialect| values.iter().map(move |&value| with(dialect, value));
    of.into_iter().flat_map(all).collect()
}

fn compared(layers: &[Layer], text: &[u8]) -> Report {
    difference::report(layers, &typed::table(text).expect("a table").rows)
}

#[test]
fn a_true_table_is_equal_in_every_dialect() {
    let dialects = dialects();
    assert_eq!(dialects.len(), 3 * 3 * ENCODINGS * 2 * 2 * 2 * 2 * 7);
    let samples = samples();
    for (at, dialect) in dialects.iter().enumerate() {
        // The mug in each dialect, the other samples in turn.
        for layers in [&samples[0], &samples[1 + at % 4]] {
            let report = compared(layers, &dialect.write(&true_rows(layers)));
            assert!(report.is_equal(), "{:?}: {:?}", dialect, report);
        }
    }
}

#[test]
fn a_true_table_is_equal_in_every_order_of_columns() {
    let rows = true_rows(&mug());
    for number in 0..720 {
        let (mut left, mut rest) = (number, vec![0, 1, 2, 3, 4, 5]);
        let columns = [6, 5, 4, 3, 2, 1].map(|among| {
            let column = rest.remove(left % among);
            left /= among;
            column
        });
        let dialect = Dialect {
            heading: 1,
            columns,
            ..PLAIN
        };
        assert!(
            compared(&mug(), &dialect.write(&rows)).is_equal(),
            "{:?}",
            columns
        );
    }
}

/// The same numbers in every run.
struct Draw(u64);

impl Draw {
    fn below(&mut self, bound: usize) -> usize {
        self.0 = self
            .0
            .wrapping_mul(6364136223846793005)
            .wrapping_add(1442695040888963407);
        (self.0 >> 33) as usize % bound
    }

    fn of<T: Copy>(&mut self, values: &[T]) -> T {
        values[self.below(values.len())]
    }

    /// Two different places below a bound of two or more, the lower one first.
    fn two(&mut self, bound: usize) -> (usize, usize) {
        let low = self.below(bound - 1);
        (low, low + 1 + self.below(bound - 1 - low))
    }
}

const KINDS: [&str; 12] = [
    "a number changed",
    "a number that is none",
    "a name changed",
    "a row dropped",
    "a row moved",
    "the contents of two rows exchanged",
    "a row doubled",
    "every order shifted",
    "orders shifted from a row on",
    "a row too many",
    "a field too few",
    "a field too many",
];

/// Makes a true table untrue, or leaves it where this kind cannot.
fn mutate(kind: &str, rows: &mut Vec<Cells>, draw: &mut Draw) {
    let at = draw.below(rows.len());
    match kind {
        "a number changed" => {
            let column = draw.of(&[0, 2, 3, 4, 5]);
            let by = draw.of(&[-100, -10, -1, 1, 10, 100]);
            add(&mut rows[at][column], by);
        }
        "a number that is none" => {
            let column = draw.of(&[0, 2, 3, 4, 5]);
            let typed: [&[u8]; 7] = [b"", b"O", b"l", b"1.5", b"0x1", b"--1", b"1 1"];
            rows[at][column] = draw.of(&typed).to_vec();
        }
        "a name changed" => change_name(&mut rows[at][1], draw),
        "a row dropped" => drop(rows.remove(at)),
        "a row doubled" => {
            let to = draw.below(rows.len() + 1);
            rows.insert(to, rows[at].clone());
        }
        "every order shifted" => {
            let by = draw.of(&[-1, 1, 2]);
            rows.iter_mut().for_each(|row| add(&mut row[0], by));
        }
        "orders shifted from a row on" => {
            let by = draw.of(&[-1, 1, 2]);
            rows[at..].iter_mut().for_each(|row| add(&mut row[0], by));
        }
        "a row too many" => {
            let order = draw.of(&[&b"x"[..], b"", b"0", b"-1", b"64", b"order"]);
            let row = [order, b"Extra", b"0", b"0", b"9", b"9"];
            let to = draw.below(rows.len() + 1);
            rows.insert(to, row.map(|cell| cell.to_vec()));
        }
        _ => mutate_two(kind, rows, draw),
    }
}

fn mutate_two(kind: &str, rows: &mut Vec<Cells>, draw: &mut Draw) {
    if rows.len() < 2 {
        return;
    }
    let (low, high) = draw.two(rows.len());
    match kind {
        "a row moved" => {
            let row = rows.remove(low);
            rows.insert(high, row);
        }
        "the contents of two rows exchanged" => {
            for column in 1..6 {
                let cell = rows[low][column].clone();
                rows[low][column] = std::mem::replace(&mut rows[high][column], cell);
            }
        }
        _ => {}
    }
}

fn add(cell: &mut Vec<u8>, by: i64) {
    let number: i64 = String::from_utf8_lossy(cell).parse().expect("a number");
    *cell = (number + by).to_string().into_bytes();
}

fn change_name(name: &mut Vec<u8>, draw: &mut Draw) {
    let at = draw.below(name.len() + 1);
    match (draw.below(4), name.get_mut(at)) {
        (0, Some(byte)) => *byte = byte.wrapping_add(1).max(1),
        (1, Some(_)) => drop(name.remove(at)),
        (2, _) => name.push(b' '),
        _ => name.insert(at, draw.of(b"a 0,;\t\"\r\n\x81\xE9")),
    }
}

/// A field too few or too many is a slip of writing and not of a cell.
fn write(kind: &str, dialect: &Dialect, rows: &[Cells], draw: &mut Draw) -> Vec<u8> {
    let at = draw.below(rows.len());
    let plain = Dialect {
        encoding: 0,
        columns: PLAIN.columns,
        ..*dialect
    };
    let mut text = plain.write(&rows[..at]);
    let mut row = Vec::new();
    Dialect {
        empty_columns: 0,
        ..plain
    }
    .row(&rows[at], &mut row);
    row.truncate(row.len() - plain.line_end.len());
    match kind {
        "a field too few" => {
            let field = row.iter().rposition(|&byte| byte == plain.separator);
            row.truncate(field.unwrap_or(0));
        }
        "a field too many" => {
            row.push(plain.separator);
            row.extend(vec![plain.separator; draw.below(3)]);
            row.extend(b"0");
        }
        _ => return dialect.write(rows),
    }
    text.extend(row);
    text.extend(plain.line_end.as_bytes());
    let bare = Dialect {
        heading: 0,
        sep_line: false,
        ..plain
    };
    text.extend(bare.write(&rows[at + 1..]));
    dialect.encode(&text)
}

#[test]
fn a_thousand_tables_that_are_not_true_are_different() {
    let (samples, dialects) = (samples(), dialects());
    let mut draw = Draw(1);
    let mut made = [0; KINDS.len()];
    while made.iter().sum::<usize>() < 3000 {
        let k = draw.below(KINDS.len());
        let layers = &samples[draw.below(samples.len())];
        let mut rows = true_rows(layers);
        mutate(KINDS[k], &mut rows, &mut draw);
        let slip = KINDS[k].starts_with("a field too");
        if rows == true_rows(layers) && !slip || rows.is_empty() {
            continue;
        }
        let dialect = dialects[draw.below(dialects.len())];
        let text = write(KINDS[k], &dialect, &rows, &mut draw);
        let report = compared(layers, &text);
        assert!(!report.is_equal(), "{}: {:?} {:?}", KINDS[k], dialect, rows);
        made[k] += 1;
    }
    assert!(made.iter().all(|&count| count > 100), "{:?}", made);
}

/// What a saved table holds of layers: width and height.
fn sizes(layers: &[Layer]) -> Vec<Option<[u32; 2]>> {
    let size = |layer: &Layer| {
        let [_, _, width, height] = layer.rectangle;
        Some([width as u32, height as u32])
    };
    layers.iter().map(size).collect()
}

/// The columns that are compared with those: order, width and height.
fn held(rows: &[Cells]) -> Vec<[&[u8]; 3]> {
    let held = rows.iter().map(|row| [0, 4, 5].map(|at| &row[at][..]));
    held.collect()
}

#[test]
fn a_saved_table_is_compared_by_what_it_holds_alone() {
    let (samples, dialects) = (samples(), dialects());
    // What cannot be read is told of any column.
    let is_read = |kind: &&str| *kind != "a number that is none";
    let kinds: Vec<&str> = KINDS.into_iter().filter(is_read).collect();
    let mut draw = Draw(3);
    let mut made = [0; 2];
    while made.iter().sum::<usize>() < 1000 {
        let layers = &samples[draw.below(samples.len())];
        let (mut rows, whole) = (true_rows(layers), true_rows(layers));
        mutate(draw.of(&kinds), &mut rows, &mut draw);
        if rows.is_empty() {
            continue;
        }
        let text = dialects[draw.below(dialects.len())].write(&rows);
        let typed = typed::table(&text).expect("a table").rows;
        let report = difference::of_sizes(&sizes(layers), &typed);
        let is_equal = held(&rows) == held(&whole);
        assert_eq!(report.is_equal(), is_equal, "{:?}: {:?}", rows, report);
        made[usize::from(is_equal && rows != whole)] += 1;
    }
    assert!(made.iter().all(|&count| count > 100), "{:?}", made);
}

/// A table with any byte changed is read to its end, whatever it says.
#[test]
fn no_text_is_too_strange() {
    let (samples, dialects) = (samples(), dialects());
    let mut draw = Draw(2);
    for _ in 0..2000 {
        let layers = &samples[draw.below(samples.len())];
        let mut text = dialects[draw.below(dialects.len())].write(&true_rows(layers));
        for _ in 0..1 + draw.below(4) {
            let at = draw.below(text.len());
            text[at] = draw.of(b"\0\r\n\"\t,;=\xFE\xFF\xEF0a");
        }
        if let Ok(table) = typed::table(&text) {
            difference::report(layers, &table.rows);
        }
    }
}
