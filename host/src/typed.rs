//! A table of layers typed by hand: its rows, and what in them cannot be read.

use crate::csv::{self, Record};
use crate::dialect;
use crate::encoding::{self, Encoding};
use crate::heading::{self, Columns, AS_DOCUMENTED, TITLES};
use crate::name;
use crate::number::whole;
use crate::saved;
use crate::words::counted;

/// A typed table is at most so long; one of 64 layers is far shorter.
pub const LIMIT: usize = 1 << 20;

/// A typed name: the bytes that are compared, and how it is shown.
#[derive(Clone, Debug, PartialEq, Eq)]
pub struct Name {
    pub bytes: Vec<u8>,
    pub shown: String,
}

/// A typed row. What could not be read is none, and has its sentence among the faults.
#[derive(Clone, Debug, PartialEq, Eq)]
pub struct Row {
    pub line: usize,
    pub order: Option<i64>,
    pub name: Option<Name>,
    /// Left, top, width, height.
    pub sides: [Option<i64>; 4],
    pub faults: Vec<String>,
}

/// A typed table, and sentences on how it was read.
#[derive(Clone, Debug, PartialEq, Eq)]
pub struct Table {
    pub rows: Vec<Row>,
    pub said: Vec<String>,
    /// The first of these where names are not compared.
    pub said_of_fields: String,
}

/// The table that a file has, or why it has none.
pub fn table(file: &[u8]) -> Result<Table, String> {
    if file.len() > LIMIT {
        return Err(format!("a table has at most {} bytes", LIMIT));
    }
    if saved::is(file) {
        return Err("this is a saved table and no typed one".to_string());
    }
    let text = encoding::text(file)?;
    let dialect = dialect::dialect(&text.bytes)?;
    let records = csv::records(dialect.rest, dialect.line, dialect.separator);
    let mut records = records.filter(|record| !record.is_blank()).peekable();
    let columns = records.peek().and_then(heading::columns);
    let is_wordy = columns.is_none() && records.peek().map_or(false, is_wordy);
    if columns.is_some() {
        records.next();
    }
    let mut reader = Reader {
        columns: columns.unwrap_or(AS_DOCUMENTED),
        encoding: text.encoding,
        said: Vec::new(),
    };
    let fields = format!("read: {}", dialect.sentence());
    let names = text.encoding.sentence();
    reader.said.push(format!("{}; {}", fields, names));
    let mut rows: Vec<Row> = records.map(|record| reader.row(&record)).collect();
    for first in rows.iter_mut().take(usize::from(is_wordy)) {
        let words = TITLES.join(", ");
        first
            .faults
            .push(format!("a heading has the words {}", words));
    }
    Ok(Table {
        rows,
        said: reader.said,
        said_of_fields: fields,
    })
}

/// Whether a row has no digit; a first one was then meant for a heading.
fn is_wordy(record: &Record) -> bool {
    !record.text.iter().any(u8::is_ascii_digit)
}

fn second_heading(line: usize) -> Row {
    Row {
        line,
        order: None,
        name: None,
        sides: [None; 4],
        faults: vec!["a heading, which is to stand first".to_string()],
    }
}

struct Reader {
    columns: Columns,
    encoding: Encoding,
    said: Vec<String>,
}

impl Reader {
    fn row(&mut self, record: &Record) -> Row {
        if heading::columns(record).is_some() {
            return second_heading(record.line);
        }
        let mut faults = Vec::new();
        let fields = self.columns.map(|column| record.fields.get(column));
        let mut numbers = [None; 6];
        for ((number, field), title) in numbers.iter_mut().zip(fields).zip(TITLES) {
            let field = field.filter(|_| title != "name");
            match field.map(|field| (field, whole(field))) {
                Some((_, Ok(typed))) => *number = Some(typed),
                Some((field, Err(why))) => {
                    faults.push(format!("{} {} {}", title, self.shown(field), why));
                }
                None => {}
            }
        }
        if record.fields.len() == 1 {
            // The whole row is shown as one that lacks columns.
            faults.clear();
        }
        faults.extend(self.wrong_columns(record));
        let [order, _, left, top, width, height] = numbers;
        let [_, name, ..] = fields;
        Row {
            line: record.line,
            order,
            name: name.map(|field| self.name(field, record.line)),
            sides: [left, top, width, height],
            faults,
        }
    }

    /// What is wrong with a row besides its numbers: a quote, columns missing, text beyond them.
    fn wrong_columns(&self, record: &Record) -> Vec<String> {
        let found = record.fields.len();
        if let Some(wrong) = record.wrong {
            let title = heading::title(&self.columns, found);
            return vec![format!(
                "{} {}, in {}",
                title,
                wrong,
                self.shown(record.text)
            )];
        }
        let is_missing = |(&column, _): &(&usize, &str)| column >= found;
        if let Some((_, title)) = self.columns.iter().zip(TITLES).find(is_missing) {
            let has = counted(found, "column");
            let row = self.shown(record.text);
            return vec![format!("{} is missing, {} of 6 in {}", title, has, row)];
        }
        let beyond = record.fields.iter().enumerate().skip(TITLES.len());
        beyond
            .filter(|(_, field)| !csv::is_blank(field))
            .map(|(column, field)| format!("column {} has {}", column + 1, self.shown(field)))
            .collect()
    }

    /// A decoded name is the code page's where each of its characters has a byte there.
    fn name(&mut self, field: &[u8], line: usize) -> Name {
        let text = std::str::from_utf8(field).ok();
        let text = text.filter(|_| self.encoding.is_decoded());
        let bytes = match text.map(name::encoded) {
            Some(Some(bytes)) => bytes,
            Some(None) => {
                self.said.push(format!(
                    "line {}: name {} has characters that code page 1252 has not; compared as bytes",
                    line,
                    self.shown(field)
                ));
                field.to_vec()
            }
            None => field.to_vec(),
        };
        Name {
            bytes,
            shown: self.shown(field),
        }
    }

    /// A part of the text in quotes.
    fn shown(&self, part: &[u8]) -> String {
        match std::str::from_utf8(part) {
            Ok(text) if self.encoding.is_decoded() => name::quoted_text(text),
            _ => name::quoted(part),
        }
    }
}

#[cfg(test)]
mod tests {
    use super::*;

    fn rows(text: &[u8]) -> Vec<Row> {
        table(text).expect("a table").rows
    }

    fn faults(text: &[u8]) -> Vec<String> {
        rows(text).into_iter().flat_map(|row| row.faults).collect()
    }

    fn said(text: &[u8]) -> Vec<String> {
        table(text).expect("a table").said
    }

    #[test]
    fn columns_are_read_by_their_titles() {
        let row = Row {
            line: 2,
            order: Some(0),
            name: Some(Name {
                bytes: b"Gold".to_vec(),
                shown: "\"Gold\"".to_string(),
            }),
            sides: [Some(-1), Some(2), Some(3), Some(4)],
            faults: Vec::new(),
        };
        let text = b"name,order,height,width,left,top\nGold, 0 ,4,3,-1,2\n";
        assert_eq!(rows(text), [row.clone()]);
        assert_eq!(rows(b"\n0,Gold,-1,2,3,4,,\n,,,,,\n"), [row]);
    }

    #[test]
    fn what_cannot_be_read_has_its_column_and_text() {
        let expected = [
            "order \"O\" is no whole number",
            "width \"\" is no whole number",
            "top \"9223372036854775808\" has too many digits",
            "column 7 has \"x\"",
        ];
        let text = b"O,a,1,1,1,1\n1,a,1,1,,1\n2,a,1,9223372036854775808,1,1\n3,a,1,1,1,1,x\n";
        assert_eq!(faults(text), expected);
        let orders: Vec<Option<i64>> = rows(text).iter().map(|row| row.order).collect();
        assert_eq!(orders, [None, Some(1), Some(2), Some(3)]);
    }

    #[test]
    fn a_row_that_is_too_short_names_what_is_missing() {
        let expected = ["height is missing, 5 columns of 6 in \"0,a,1,1,1\""];
        assert_eq!(faults(b"0,a,1,1,1\n"), expected);
        let expected = ["name is missing, 1 column of 6 in \"0|a|1\""];
        assert_eq!(faults(b"0|a|1\n"), expected);
        let text = b"height,name,left,top,width,order\n0,a\n";
        let expected = ["order is missing, 2 columns of 6 in \"0,a\""];
        assert_eq!(faults(text), expected);
    }

    #[test]
    fn a_wrong_quote_hides_no_other_row() {
        let text = b"0,\"a,1,1,1,1\n1,b,1,1,1,1\n";
        let expected = ["name has a quote that is not closed, in \"0,\\\"a,1,1,1,1\""];
        assert_eq!(faults(text), expected);
        let orders: Vec<Option<i64>> = rows(text).iter().map(|row| row.order).collect();
        assert_eq!(orders, [Some(0), Some(1)]);
    }

    #[test]
    fn a_row_that_was_meant_for_a_heading_is_told_as_such() {
        let last = faults(b"order,name,left,top,width,hight\n0,a,1,1,1,1\n").pop();
        let expected = "a heading has the words order, name, left, top, width, height";
        assert_eq!(last.as_deref(), Some(expected));
        assert_eq!(faults(b"O,a,1,1,1,1\n").len(), 1);
    }

    #[test]
    fn a_heading_in_another_place_is_told() {
        let heading = "order,name,left,top,width,height\n";
        let expected = ["a heading, which is to stand first"];
        assert_eq!(faults([heading, heading].concat().as_bytes()), expected);
    }

    #[test]
    fn how_it_was_read_is_said() {
        let expected = ["read: fields between tabs, by the first row; names compared as bytes"];
        assert_eq!(said(b"0\ta\t1\t1\t1\t1\n"), expected);
        let text = "\u{FEFF}sep=;\n0;G\u{43E}ld;1;1;1;1\n";
        let expected = [
            "read: fields between semicolons, by the sep= line; \
                UTF-8 with a mark, names compared as code page 1252",
            "line 2: name \"G\\u{43E}ld\" has characters that code page 1252 has not; \
                compared as bytes",
        ];
        assert_eq!(said(text.as_bytes()), expected);
        let fields = table(text.as_bytes()).expect("a table").said_of_fields;
        assert_eq!(fields, "read: fields between semicolons, by the sep= line");
    }

    #[test]
    fn a_saved_table_is_no_typed_one() {
        let why = "this is a saved table and no typed one";
        assert_eq!(table(b"\0\0\0\x05\x01\0\0\0\0"), Err(why.to_string()));
    }

    #[test]
    fn a_file_that_is_too_long_is_no_table() {
        assert!(table(&vec![b'x'; LIMIT]).is_ok());
        assert!(table(&vec![b'x'; LIMIT + 1]).is_err());
    }
}
