//! The columns of a typed table and their titles.

use crate::csv::{self, Record};

pub const TITLES: [&str; 6] = ["order", "name", "left", "top", "width", "height"];

/// For each title the column that has it.
pub type Columns = [usize; 6];

/// The columns of a table without a heading.
pub const AS_DOCUMENTED: Columns = [0, 1, 2, 3, 4, 5];

/// The columns that a heading names: its words are the titles, each once, in any order and letter
/// case, with spaces around them or none. Any other row is no heading.
pub fn columns(record: &Record) -> Option<Columns> {
    let fields = &record.fields;
    let beyond = fields.get(TITLES.len()..)?;
    if record.wrong.is_some() || !beyond.iter().all(|field| csv::is_blank(field)) {
        return None;
    }
    let mut columns = AS_DOCUMENTED;
    for (column, title) in columns.iter_mut().zip(TITLES) {
        *column = fields.iter().position(|field| is_title(field, title))?;
    }
    Some(columns)
}

fn is_title(field: &[u8], title: &str) -> bool {
    let word = std::str::from_utf8(field).unwrap_or_default();
    word.trim().eq_ignore_ascii_case(title)
}

/// What to call a column, counted from 0.
pub fn title(columns: &Columns, column: usize) -> String {
    let mut titled = columns.iter().zip(TITLES);
    match titled.find(|(&place, _)| place == column) {
        Some((_, title)) => title.to_string(),
        None => format!("column {}", column + 1),
    }
}

#[cfg(test)]
mod tests {
    use super::*;

    fn of(line: &str) -> Option<Columns> {
        let row = csv::records(line.as_bytes(), 1, b',').next();
        row.as_ref().and_then(columns)
    }

    #[test]
    fn a_heading_has_the_titles_in_any_order_and_letter_case() {
        assert_eq!(of("order,name,left,top,width,height"), Some(AS_DOCUMENTED));
        let mixed = of(" Name ,ORDER,left,Top,height,width,, ");
        assert_eq!(mixed, Some([1, 0, 2, 3, 5, 4]));
        assert_eq!(title(&[1, 0, 2, 3, 5, 4], 4), "height");
        assert_eq!(title(&AS_DOCUMENTED, 6), "column 7");
    }

    #[test]
    fn everything_else_is_a_row() {
        for line in [
            "x,Extra,0,0,9,9",
            "order,name,left,top,width",
            "order,name,left,top,width,hight",
            "order,name,left,top,width,width",
            "order,name,left,top,width,height,visible",
            "order,name,left,top,width,height,\"",
            "",
        ] {
            assert_eq!(of(line), None, "{}", line);
        }
    }
}
