//! How a typed table differs from the file's.

use crate::heading::TITLES;
use crate::name;
use crate::table::Layer;
use crate::typed::{Name, Row};
use crate::words::counted;

/// The differences of a typed table, a line each, and what was compared.
#[derive(Clone, Debug, PartialEq, Eq)]
pub struct Report {
    pub lines: Vec<String>,
    layers: usize,
    rows: usize,
    /// Whether the layers are those of a saved table.
    is_saved: bool,
}

/// What closes a comparison that passed columns over, so that nobody takes it for the whole.
const NOT_COMPARED: &str = "name, left and top were not compared: a saved table does not hold them";

impl Report {
    pub fn is_equal(&self) -> bool {
        self.lines.is_empty()
    }

    /// What was counted.
    pub fn counts(&self) -> String {
        format!(
            "{} in the {}, {} typed, {}",
            counted(self.layers, "layer"),
            if self.is_saved { "saved table" } else { "file" },
            counted(self.rows, "row"),
            counted(self.lines.len(), "difference")
        )
    }

    /// The closing line.
    pub fn closing(&self) -> String {
        let counts = self.counts();
        match (self.is_equal(), self.is_saved) {
            (true, false) => format!("no difference: {}", counts),
            (true, true) => format!(
                "no difference in order, width and height: {}; {}",
                counts, NOT_COMPARED
            ),
            (false, false) => format!("different: {}", counts),
            (false, true) => format!("different: {}; {}", counts, NOT_COMPARED),
        }
    }
}

/// A layer as far as the file tells: a saved table has neither its name nor where it lies.
struct Real<'a> {
    name: Option<&'a [u8]>,
    /// Left, top, width, height.
    sides: [Option<i64>; 4],
}

impl Real<'_> {
    fn of_artwork(layer: &Layer) -> Real<'_> {
        Real {
            name: Some(&layer.name),
            sides: layer.rectangle.map(Some),
        }
    }

    fn of_saved(size: &Option<[u32; 2]>) -> Real<'static> {
        let [width, height] = match size {
            Some(size) => size.map(|side| Some(i64::from(side))),
            None => [None; 2],
        };
        Real {
            name: None,
            sides: [None, None, width, height],
        }
    }
}

/// Compares with the layers of artwork.
pub fn report(file: &[Layer], typed: &[Row]) -> Report {
    let file: Vec<Real> = file.iter().map(Real::of_artwork).collect();
    compared(&file, typed, false)
}

/// Compares with the layers of a saved table, by width and height where they are known.
pub fn of_sizes(file: &[Option<[u32; 2]>], typed: &[Row]) -> Report {
    let file: Vec<Real> = file.iter().map(Real::of_saved).collect();
    compared(&file, typed, true)
}

/// Tells the rows that are no layer's; then compares layer by layer, the row of a layer being the
/// one with its number; then tells the first row in a wrong order.
fn compared(file: &[Real], typed: &[Row], is_saved: bool) -> Report {
    let mut lines = Vec::new();
    let from = i64::from(is_counted_from_1(file, typed));
    if from == 1 {
        let slip = "the orders are counted from 1, and layers from 0; compared as one less each";
        lines.push(slip.to_string());
    }
    let mut rows_of: Vec<Vec<&Row>> = vec![Vec::new(); file.len()];
    let mut others = Vec::new();
    for row in typed {
        match place(row, from).and_then(|place| rows_of.get_mut(place)) {
            Some(rows) => rows.push(row),
            None => others.push(row),
        }
    }
    lines.extend(others.into_iter().map(no_layer));
    for (k, (layer, rows)) in file.iter().zip(&rows_of).enumerate() {
        lines.extend(of_layer(k, layer, rows));
    }
    lines.extend(wrong_order(typed));
    Report {
        lines,
        layers: file.len(),
        rows: typed.len(),
        is_saved,
    }
}

/// The layer number of a row whose table counts from 0 or 1.
fn place(row: &Row, from: i64) -> Option<usize> {
    let place = row.order?.checked_sub(from)?;
    usize::try_from(place).ok()
}

/// Whether every order that could be read is 1 or more, and more of what is typed agrees with the
/// layer one below than with the layer of that number. A table that counts from 0 and lacks its
/// first row agrees as it stands.
fn is_counted_from_1(file: &[Real], typed: &[Row]) -> bool {
    let agreeing = |from| -> usize {
        let pairs = typed
            .iter()
            .filter_map(|row| Some((file.get(place(row, from)?)?, row)));
        pairs.map(|(layer, row)| agreeing(layer, row)).sum()
    };
    let is_above_0 = |row: &Row| row.order.map_or(true, |order| order >= 1);
    typed.iter().all(is_above_0) && agreeing(1) > agreeing(0)
}

/// How many of the five fields of a row are the layer's.
fn agreeing(layer: &Real, row: &Row) -> usize {
    let name = row.name.as_ref().map(|name| name.bytes.as_slice());
    let sides = layer.sides.iter().zip(&row.sides);
    usize::from(name.is_some() && name == layer.name)
        + sides
            .filter(|(real, typed)| real.is_some() && real == typed)
            .count()
}

fn of_layer(k: usize, layer: &Real, rows: &[&Row]) -> Vec<String> {
    let first = match rows.first() {
        Some(row) => row.line,
        None => return vec![format!("layer {}: missing from the table", k)],
    };
    let mut lines = Vec::new();
    for row in rows {
        let mut told = Vec::new();
        if row.line != first {
            told.push(format!("typed again, first on line {}", first));
        }
        told.extend(row.faults.iter().cloned());
        told.extend(fields(layer, row));
        if !told.is_empty() {
            lines.push(format!(
                "layer {} (line {}): {}",
                k,
                row.line,
                told.join("; ")
            ));
        }
    }
    lines
}

/// What differs, field by field.
fn fields(layer: &Real, row: &Row) -> Vec<String> {
    let names = layer.name.iter().zip(&row.name);
    let mut told: Vec<String> = names
        .filter_map(|(real, typed)| of_name(real, typed))
        .collect();
    if let [_, _, None, None] = layer.sides {
        told.push("the saved table's channels do not tell width and height".to_string());
    }
    let sides = layer
        .sides
        .iter()
        .zip(&row.sides)
        .zip(TITLES.iter().skip(2));
    for ((real, typed), title) in sides {
        match (real, typed) {
            (Some(real), Some(typed)) if real != typed => {
                told.push(format!("{} {}, typed {}", title, real, typed));
            }
            _ => {}
        }
    }
    told
}

fn of_name(real: &[u8], typed: &Name) -> Option<String> {
    if real == typed.bytes {
        return None;
    }
    let hint = if name::decoded(real).as_bytes() == typed.bytes {
        ", which is the same in UTF-8: save the table with a mark, or as Windows-1252"
    } else if name::decoded(&typed.bytes).as_bytes() == real {
        ", and the file has the same in UTF-8"
    } else {
        ""
    };
    let real = name::quoted(real);
    Some(format!("name {}, typed {}{}", real, typed.shown, hint))
}

fn no_layer(row: &Row) -> String {
    let mut told = Vec::new();
    if let Some(order) = row.order {
        told.push(format!("order {}, and the file has no such layer", order));
    }
    told.extend(row.faults.iter().cloned());
    format!("line {}: {}", row.line, told.join("; "))
}

fn wrong_order(typed: &[Row]) -> Option<String> {
    let orders = typed.iter().filter_map(|row| Some((row.line, row.order?)));
    let mut pairs = orders.clone().zip(orders.skip(1));
    let ((_, before), (line, order)) = pairs.find(|((_, before), (_, order))| order < before)?;
    Some(format!(
        "line {}: wrong order, {} after {}; the bottom layer comes first",
        line, order, before
    ))
}

#[cfg(test)]
mod tests {
    use super::*;
    use crate::typed;

    fn layer(name: &[u8], rectangle: [i64; 4]) -> Layer {
        Layer {
            name: name.to_vec(),
            rectangle,
        }
    }

    fn file() -> Vec<Layer> {
        vec![
            layer(b"Base, white", [0, 0, 5, 5]),
            layer(b"Gold", [-1, 2, 3, 4]),
            layer(b"Caf\xE9 ", [1, 1, 1, 1]),
        ]
    }

    fn compared(text: &[u8]) -> Report {
        report(&file(), &typed::table(text).expect("a table").rows)
    }

    const ROWS: [&[u8]; 3] = [
        b"0,\"Base, white\",0,0,5,5\n",
        b"1,Gold,-1,2,3,4\n",
        b"2,Caf\xE9 ,1,1,1,1\n",
    ];

    #[test]
    fn a_true_table_differs_nowhere() {
        let report = compared(&ROWS.concat());
        assert_eq!(report.lines, [""; 0]);
        let closing = "no difference: 3 layers in the file, 3 rows typed, 0 differences";
        assert_eq!(report.closing(), closing);
    }

    #[test]
    fn every_field_that_differs_is_told() {
        let report = compared(&[ROWS[0], b"1,gold\x1B,-1,2,33,44\n", ROWS[2]].concat());
        let expected = [
            "layer 1 (line 2): name \"Gold\", typed \"gold\\x1B\"; width 3, typed 33; \
                height 4, typed 44",
        ];
        assert_eq!(report.lines, expected);
        let closing = "different: 3 layers in the file, 3 rows typed, 1 difference";
        assert_eq!(report.closing(), closing);
    }

    #[test]
    fn a_row_above_the_table_is_not_dropped() {
        let report = compared(&[&b"x,Extra,0,0,9,9\n"[..], &ROWS.concat()].concat());
        assert_eq!(report.lines, ["line 1: order \"x\" is no whole number"]);
    }

    #[test]
    fn missing_repeated_and_extra_rows_are_told() {
        let text = [
            ROWS[1],
            ROWS[1],
            ROWS[2],
            b"3,x,0,0,0,0\n",
            b"-1,x,0,0,0,x\n",
        ]
        .concat();
        let expected = [
            "line 4: order 3, and the file has no such layer",
            "line 5: order -1, and the file has no such layer; height \"x\" is no whole number",
            "layer 0: missing from the table",
            "layer 1 (line 2): typed again, first on line 1",
            "line 5: wrong order, -1 after 3; the bottom layer comes first",
        ];
        assert_eq!(compared(&text).lines, expected);
    }

    #[test]
    fn a_table_from_the_top_is_in_a_wrong_order() {
        let expected = ["line 2: wrong order, 1 after 2; the bottom layer comes first"];
        assert_eq!(
            compared(&[ROWS[2], ROWS[1], ROWS[0]].concat()).lines,
            expected
        );
    }

    const SLIP: &str =
        "the orders are counted from 1, and layers from 0; compared as one less each";

    #[test]
    fn a_table_that_counts_from_1_is_told_in_one_sentence() {
        let one = &b"1,\"Base, white\",0,0,5,5\n"[..];
        let two = &b"2,Gold,-1,2,3,4\n"[..];
        let three = &b"3,Caf\xE9 ,1,1,1,1\n"[..];
        assert_eq!(compared(&[one, two, three].concat()).lines, [SLIP]);
        let missing = [SLIP, "layer 1: missing from the table"];
        assert_eq!(compared(&[one, three].concat()).lines, missing);
        let extra = [SLIP, "line 4: order 4, and the file has no such layer"];
        let text = [one, two, three, b"4,x,0,0,0,0\n"].concat();
        assert_eq!(compared(&text).lines, extra);
        let unread = [
            SLIP,
            "line 2: order \"Z\" is no whole number",
            "layer 1: missing from the table",
        ];
        assert_eq!(
            compared(&[one, b"Z,Gold,-1,2,3,4\n", three].concat()).lines,
            unread
        );
    }

    #[test]
    fn a_table_that_lacks_its_first_row_counts_from_0() {
        let expected = ["layer 0: missing from the table"];
        assert_eq!(compared(&[ROWS[1], ROWS[2]].concat()).lines, expected);
    }

    #[test]
    fn the_same_name_in_another_encoding_is_told_as_such() {
        let text = [ROWS[0], ROWS[1], "2,Café ,1,1,1,1\n".as_bytes()].concat();
        let expected = [
            "layer 2 (line 3): name \"Café \", typed \"CafÃ© \", which is the \
                same in UTF-8: save the table with a mark, or as Windows-1252",
        ];
        assert_eq!(compared(&text).lines, expected);
        let marked = [&b"\xEF\xBB\xBF"[..], &text].concat();
        assert!(compared(&marked).is_equal());
        let file = [layer("Café".as_bytes(), [1, 1, 1, 1])];
        let text = "\u{FEFF}0,Café,1,1,1,1\n".as_bytes();
        let report = report(&file, &typed::table(text).expect("a table").rows);
        let expected = ["layer 0 (line 1): name \"CafÃ©\", typed \"Café\", and the \
            file has the same in UTF-8"];
        assert_eq!(report.lines, expected);
    }

    const NOT_ALL: &str = "name, left and top were not compared: a saved table does not hold them";

    /// Against a saved table of the same layers.
    fn sized(text: &[u8]) -> Report {
        let sizes = [Some([5, 5]), Some([3, 4]), Some([1, 1])];
        of_sizes(&sizes, &typed::table(text).expect("a table").rows)
    }

    #[test]
    fn a_saved_table_is_compared_by_order_width_and_height() {
        let closing = format!(
            "no difference in order, width and height: 3 layers in the saved table, 3 rows typed, \
                0 differences; {}",
            NOT_ALL
        );
        let other = b"0,x,9,9,5,5\n1,y,8,8,3,4\n2,z,7,7,1,1\n";
        for text in [ROWS.concat(), other.to_vec()] {
            let report = sized(&text);
            assert_eq!(
                (report.is_equal(), report.closing()),
                (true, closing.clone())
            );
        }
        let report = sized(&[ROWS[0], b"1,x,0,0,3,40\n", b"3,x,0,0,1,1\n"].concat());
        let expected = [
            "line 3: order 3, and the file has no such layer",
            "layer 1 (line 2): height 4, typed 40",
            "layer 2: missing from the table",
        ];
        assert_eq!(report.lines, expected);
        let closing = "different: 3 layers in the saved table, 3 rows typed, 3 differences";
        assert_eq!(report.closing(), format!("{}; {}", closing, NOT_ALL));
    }

    #[test]
    fn what_is_typed_beside_a_saved_table_is_read_all_the_same() {
        let text = b"1,a,x,0,5,5\n2,b,0,0,3,4\n3,c,0,0,1,1\n";
        let expected = [SLIP, "layer 0 (line 1): left \"x\" is no whole number"];
        assert_eq!(sized(text).lines, expected);
    }

    #[test]
    fn a_size_that_is_not_known_is_a_difference() {
        let rows = typed::table(b"0,a,0,0,5,5\n").expect("a table").rows;
        let report = of_sizes(&[None], &rows);
        let expected =
            ["layer 0 (line 1): the saved table's channels do not tell width and height"];
        assert_eq!(report.lines, expected);
    }

    #[test]
    fn an_empty_table_lacks_every_layer() {
        assert_eq!(compared(b"").lines.len(), 3);
        let heading = compared(b"order,name,left,top,width,height\n");
        let closing = "different: 3 layers in the file, 0 rows typed, 3 differences";
        assert_eq!(heading.closing(), closing);
    }
}
