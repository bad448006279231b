//! Separated values over bytes, as RFC 4180 has them but for the separator: lines end in CRLF, CR
//! or LF, and a field with a separator, a quote or a line end is quoted, its quotes written twice.

/// A row, and the line on which it starts, counted from 1.
#[derive(Clone, Debug, PartialEq, Eq)]
pub struct Record<'a> {
    pub line: usize,
    /// The row as it stands in the text, without its line end.
    pub text: &'a [u8],
    /// All fields, or those before the wrong one.
    pub fields: Vec<Vec<u8>>,
    /// What is wrong with the field behind these. Such a row ends where its first line does, so
    /// that it takes no other row with it.
    pub wrong: Option<&'static str>,
}

impl Record<'_> {
    pub fn is_blank(&self) -> bool {
        self.wrong.is_none() && self.fields.iter().all(|field| is_blank(field))
    }
}

/// Whether nothing is typed in a field but spaces.
pub fn is_blank(field: &[u8]) -> bool {
    field.iter().all(|&byte| byte == b' ' || byte == b'\t')
}

const NOT_CLOSED: &str = "has a quote that is not closed";

/// The rows of a text, blank ones too.
pub struct Records<'a> {
    rest: &'a [u8],
    line: usize,
    separator: u8,
}

/// The rows of a text that starts on a line.
pub fn records(text: &[u8], line: usize, separator: u8) -> Records<'_> {
    Records {
        rest: text,
        line,
        separator,
    }
}

impl<'a> Iterator for Records<'a> {
    type Item = Record<'a>;

    fn next(&mut self) -> Option<Record<'a>> {
        if self.rest.is_empty() {
            return None;
        }
        let (start, line) = (self.rest, self.line);
        let mut fields = Vec::new();
        let wrong = self.fields(&mut fields).err();
        if wrong.is_some() {
            (self.rest, self.line) = (start, line);
            while !self.rest.is_empty() && !self.is_at_end() {
                self.byte();
            }
        }
        let length = start.len() - self.rest.len();
        self.passes_end();
        Some(Record {
            line,
            text: start.get(..length).unwrap_or_default(),
            fields,
            wrong,
        })
    }
}

impl Records<'_> {
    /// Adds the fields of a row up to its line end, which is not passed.
    fn fields(&mut self, fields: &mut Vec<Vec<u8>>) -> Result<(), &'static str> {
        loop {
            let field = if self.passes(b"\"") {
                self.quoted()?
            } else {
                self.plain()?
            };
            fields.push(field);
            if !self.passes(&[self.separator]) {
                return Ok(());
            }
        }
    }

    fn plain(&mut self) -> Result<Vec<u8>, &'static str> {
        let mut field = Vec::new();
        while !self.is_at_field_end() {
            match self.byte() {
                Some(b'"') => return Err("has a quote inside and is not quoted"),
                byte => field.extend(byte),
            }
        }
        Ok(field)
    }

    /// Behind an opening quote, up to its closing one and what may follow that. A quote of a later
    /// line that something else follows is an opening one.
    fn quoted(&mut self) -> Result<Vec<u8>, &'static str> {
        let opened = self.line;
        let mut field = Vec::new();
        loop {
            if self.passes(b"\"\"") {
                field.push(b'"');
            } else if self.passes(b"\"") {
                break;
            } else {
                self.line += usize::from(self.is_at_end() && !self.rest.starts_with(b"\r\n"));
                let byte = self.byte().ok_or(NOT_CLOSED)?;
                field.push(byte);
            }
        }
        match self.is_at_field_end() {
            true => Ok(field),
            false if self.line > opened => Err(NOT_CLOSED),
            false => Err("goes on behind its closing quote"),
        }
    }

    fn is_at_field_end(&self) -> bool {
        let at_separator = self.rest.first() == Some(&self.separator);
        self.rest.is_empty() || self.is_at_end() || at_separator
    }

    fn is_at_end(&self) -> bool {
        matches!(self.rest.first(), Some(b'\r' | b'\n'))
    }

    fn passes_end(&mut self) {
        let passed = self.passes(b"\r\n") || self.passes(b"\r") || self.passes(b"\n");
        self.line += usize::from(passed);
    }

    fn passes(&mut self, bytes: &[u8]) -> bool {
        let behind = self.rest.strip_prefix(bytes);
        self.rest = behind.unwrap_or(self.rest);
        behind.is_some()
    }

    fn byte(&mut self) -> Option<u8> {
        let (&byte, behind) = self.rest.split_first()?;
        self.rest = behind;
        Some(byte)
    }
}

/// A field as it is written: quoted where a reader of any separator needs it, or an eye.
pub fn written(field: &[u8]) -> Vec<u8> {
    let special = |byte: &u8| b",;\t\"\r\n".contains(byte);
    let ends_blank = field.first() == Some(&b' ') || field.last() == Some(&b' ');
    if ends_blank || field.iter().any(special) {
        quoted(field)
    } else {
        field.to_vec()
    }
}

/// A field in quotes.
pub fn quoted(field: &[u8]) -> Vec<u8> {
    let mut written = vec![b'"'];
    for &byte in field {
        written.extend(std::iter::repeat(byte).take(1 + usize::from(byte == b'"')));
    }
    written.push(b'"');
    written
}

#[cfg(test)]
mod tests {
    use super::*;

    fn all(text: &[u8]) -> Vec<Record<'_>> {
        records(text, 1, b',').collect()
    }

    fn fields(text: &[u8]) -> Vec<Vec<String>> {
        let text_of = |field: &Vec<u8>| String::from_utf8_lossy(field).into_owned();
        let of_record = |record: &Record| record.fields.iter().map(text_of).collect();
        all(text).iter().map(of_record).collect()
    }

    fn lines(text: &[u8]) -> Vec<usize> {
        all(text).iter().map(|record| record.line).collect()
    }

    #[test]
    fn lines_end_in_crlf_or_cr_or_lf_or_nothing() {
        for text in ["a,b\r\nc,d\r\n", "a,b\nc,d", "a,b\rc,d\r", "a,b\r\nc,d"] {
            assert_eq!(fields(text.as_bytes()), [["a", "b"], ["c", "d"]]);
        }
        assert!(fields(b"").is_empty());
    }

    #[test]
    fn quotes_hold_commas_quotes_and_line_ends() {
        let text = b"\"a,b\",\"say \"\"x\"\"\",\"\"\n\"two\nlines\",c,d";
        let expected = [["a,b", "say \"x\"", ""], ["two\nlines", "c", "d"]];
        assert_eq!(fields(text), expected);
    }

    #[test]
    fn fields_may_be_empty_and_keep_their_spaces() {
        assert_eq!(fields(b",, a ,"), [["", "", " a ", ""]]);
        assert!(all(b", ,\t\n").iter().all(Record::is_blank));
    }

    #[test]
    fn another_separator_leaves_commas_alone() {
        let found = records(b"a,b;c", 1, b';').next().expect("a row");
        assert_eq!(found.fields, [&b"a,b"[..], b"c"]);
    }

    #[test]
    fn records_know_their_line() {
        assert_eq!(lines(b"a\n\"b\nb\"\n\nc\n"), [1, 2, 4, 5]);
        assert_eq!(lines(b"a\r\n\"b\r\nb\"\r\n\r\nc\r\n"), [1, 2, 4, 5]);
        assert_eq!(lines(b"a\r\"b\rb\"\r\rc\r"), [1, 2, 4, 5]);
    }

    #[test]
    fn a_wrong_quote_takes_only_its_own_line() {
        let wrong = |text: &'static [u8]| {
            let found = all(text);
            let of = |record: &Record| (record.line, record.fields.len(), record.wrong);
            found.iter().map(of).collect::<Vec<_>>()
        };
        let inside = Some("has a quote inside and is not quoted");
        assert_eq!(wrong(b"a,b\"c,d\ne\n"), [(1, 1, inside), (2, 1, None)]);
        let open = Some("has a quote that is not closed");
        assert_eq!(wrong(b"a,\"b\r\nc"), [(1, 1, open), (2, 1, None)]);
        assert_eq!(wrong(b"\"a\nb\"c\n"), [(1, 0, open), (2, 0, inside)]);
        let behind = Some("goes on behind its closing quote");
        assert_eq!(wrong(b"\"a\"c\n"), [(1, 0, behind)]);
        assert_eq!(all(b"a,\"b\r\nc")[0].text, b"a,\"b");
    }

    #[test]
    fn what_is_written_reads_back() {
        let odd: [&[u8]; 6] = [b"", b"a,b;c\td", b"\"", b" a", b"a\r\nb\rc\n", b"\xE9\x81"];
        for field in odd {
            for separator in *b",;\t" {
                let text = written(field);
                let mut read = records(&text, 1, separator);
                let fields = read.next().map(|record| record.fields);
                assert_eq!(fields.unwrap_or(vec![vec![]]), [field]);
                assert_eq!(read.next(), None);
            }
        }
        assert_eq!(written(b"Layer 2"), b"Layer 2");
    }
}
