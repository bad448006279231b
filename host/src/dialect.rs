//! What separates the fields of a typed table.

use crate::csv::{self, Record};
use crate::heading;
use crate::number::whole;

/// Where the separator was found.
#[derive(Clone, Copy, Debug, PartialEq, Eq)]
pub enum Found {
    SepLine,
    Heading,
    FirstRow,
    /// The first row has none.
    Nowhere,
    /// Nothing is typed.
    Empty,
}

#[derive(Clone, Debug, PartialEq, Eq)]
pub struct Dialect<'a> {
    pub separator: u8,
    pub found: Found,
    /// The text behind a sep= line, and the line on which it starts.
    pub rest: &'a [u8],
    pub line: usize,
}

const SEPARATORS: [(u8, &str); 3] = [(b',', "commas"), (b';', "semicolons"), (b'\t', "tabs")];

impl Dialect<'_> {
    /// What the separator is, and where it was found.
    pub fn sentence(&self) -> String {
        let is_it = |(separator, _): &&(u8, &str)| *separator == self.separator;
        let called = SEPARATORS.iter().find(is_it).map_or("", |(_, name)| name);
        match self.found {
            Found::SepLine => format!("fields between {}, by the sep= line", called),
            Found::Heading => format!("fields between {}, by the heading", called),
            Found::FirstRow => format!("fields between {}, by the first row", called),
            Found::Nowhere => "no comma, semicolon or tab in the first row".to_string(),
            Found::Empty => "nothing is typed".to_string(),
        }
    }
}

/// The dialect of a text, or why its sep= line cannot be honoured.
pub fn dialect(text: &[u8]) -> Result<Dialect<'_>, String> {
    let is_end = |byte: &u8| *byte == b'\r' || *byte == b'\n';
    let end = text.iter().position(is_end).unwrap_or(text.len());
    let (first, rest) = text.split_at(end);
    match sep_line(first) {
        None => Ok(by_first_row(text)),
        Some(&[separator]) if SEPARATORS.iter().any(|(known, _)| *known == separator) => {
            let behind = rest.strip_prefix(b"\r\n").or_else(|| rest.get(1..));
            Ok(Dialect {
                separator,
                found: Found::SepLine,
                rest: behind.unwrap_or_default(),
                line: 2,
            })
        }
        Some(_) => Err("line 1: sep= names no comma, semicolon or tab".to_string()),
    }
}

/// What stands behind `sep=` in a line that has nothing else, quoted or not.
fn sep_line(line: &[u8]) -> Option<&[u8]> {
    let unquoted = line
        .strip_prefix(b"\"")
        .and_then(|line| line.strip_suffix(b"\""));
    let line = unquoted.unwrap_or(line);
    let word = line.get(..4)?;
    if word.eq_ignore_ascii_case(b"sep=") && line.len() <= 5 {
        line.get(4..)
    } else {
        None
    }
}

fn by_first_row(text: &[u8]) -> Dialect<'_> {
    let separators = SEPARATORS.iter().map(|&(separator, _)| separator);
    let ranked = separators.map(|separator| (rank(text, separator), separator));
    // Of equals the last one is taken, which is to be the comma.
    let best = ranked.rev().max_by_key(|(rank, _)| *rank);
    let ((is_heading, _, fields), separator) = best.unwrap_or(((false, 0, 0), b','));
    let found = match fields {
        _ if is_heading => Found::Heading,
        0 => Found::Empty,
        1 => Found::Nowhere,
        _ => Found::FirstRow,
    };
    Dialect {
        separator,
        found,
        rest: text,
        line: 1,
    }
}

/// How well the first row that is not blank reads with a separator: as a heading, then by how many
/// fields are numbers, then by how many there are.
fn rank(text: &[u8], separator: u8) -> (bool, usize, usize) {
    let is_typed = |record: &Record| {
        let blank = |byte: &u8| b" ,;\t".contains(byte);
        !record.text.iter().all(blank)
    };
    match csv::records(text, 1, separator).find(is_typed) {
        None => (false, 0, 0),
        Some(record) => {
            let fields = &record.fields;
            let numbers = fields.iter().filter(|field| whole(field).is_ok()).count();
            let wrong = usize::from(record.wrong.is_some());
            (
                heading::columns(&record).is_some(),
                numbers,
                fields.len() + wrong,
            )
        }
    }
}

#[cfg(test)]
mod tests {
    use super::*;

    fn found(text: &str) -> (char, Found) {
        let dialect = dialect(text.as_bytes()).expect("a dialect");
        (char::from(dialect.separator), dialect.found)
    }

    #[test]
    fn a_heading_or_the_first_row_tells_the_separator() {
        let heading = "\n;;\norder;name;left;top;width;height\n0;a,b,c,d,e,f,g;0;0;1;1\n";
        assert_eq!(found(heading), (';', Found::Heading));
        assert_eq!(found("0\ta;b\t0\t0\t1\t1\n"), ('\t', Found::FirstRow));
        assert_eq!(
            found("0,\"a;b;c;d;e;f;g\",0,0,1,1\n"),
            (',', Found::FirstRow)
        );
        assert_eq!(
            found("0;a, b, c, d, e, f;0;0;1;1\n"),
            (';', Found::FirstRow)
        );
        assert_eq!(found("0;\"a;0;0;1;1\n"), (';', Found::FirstRow));
        assert_eq!(found("O;a,b,c,d,e,f,g;0;0;1;1\n"), (';', Found::FirstRow));
        assert_eq!(
            found("Order;Name;Left;Top;Width;Hight\n"),
            (';', Found::FirstRow)
        );
    }

    #[test]
    fn without_a_separator_there_is_a_comma() {
        assert_eq!(found(""), (',', Found::Empty));
        assert_eq!(found("\n;;\n"), (',', Found::Empty));
        assert_eq!(found("0|a|0|0|1|1\n"), (',', Found::Nowhere));
    }

    #[test]
    fn a_sep_line_is_honoured() {
        for (text, separator) in [
            ("sep=;\r\n0,a", b';'),
            ("SEP=,\n0,a", b','),
            ("\"sep=\t\"\r0,a", b'\t'),
        ] {
            let dialect = dialect(text.as_bytes()).expect("a dialect");
            assert_eq!(
                (dialect.separator, dialect.found),
                (separator, Found::SepLine)
            );
            assert_eq!((dialect.rest, dialect.line), (&b"0,a"[..], 2));
        }
        assert!(dialect(b"sep=;").expect("a dialect").rest.is_empty());
        assert_eq!(found("sep=;;\n"), (';', Found::FirstRow));
    }

    #[test]
    fn a_sep_line_with_another_separator_is_told() {
        for text in ["sep=|\n", "sep=\n"] {
            let why = "line 1: sep= names no comma, semicolon or tab".to_string();
            assert_eq!(dialect(text.as_bytes()), Err(why));
        }
    }
}
