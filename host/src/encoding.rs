//! The encoding of a typed table, told by the mark that stands first, and its text.

/// How the bytes of a table are its characters.
#[derive(Clone, Copy, Debug, PartialEq, Eq)]
pub enum Encoding {
    /// No mark: the bytes are compared as they are.
    Bytes,
    Utf8,
    /// A mark of UTF-8, and what stands behind it is none: bytes as they are.
    NotUtf8,
    Utf16Little,
    Utf16Big,
}

/// The text of a table: UTF-8 where it was decoded, otherwise the file's own bytes; no mark.
#[derive(Clone, Debug, PartialEq, Eq)]
pub struct Text {
    pub encoding: Encoding,
    pub bytes: Vec<u8>,
}

impl Encoding {
    pub fn is_decoded(self) -> bool {
        !matches!(self, Encoding::Bytes | Encoding::NotUtf8)
    }

    /// What it is, and how names are compared.
    pub fn sentence(self) -> &'static str {
        match self {
            Encoding::Bytes => "names compared as bytes",
            Encoding::Utf8 => "UTF-8 with a mark, names compared as code page 1252",
            Encoding::NotUtf8 => "a mark of UTF-8 and no UTF-8 behind it, names compared as bytes",
            Encoding::Utf16Little | Encoding::Utf16Big => {
                "UTF-16 with a mark, names compared as code page 1252"
            }
        }
    }
}

/// What stands first in files that are taken for tables, and what to say of them.
const NO_TABLES: [(&[u8], &str); 5] = [
    (
        b"Paint Shop Pro Image File",
        "this is a Paint Shop Pro file and no table",
    ),
    (b"PK\x03\x04", "this is a workbook: save it as CSV"),
    (
        b"\xD0\xCF\x11\xE0",
        "this is an old workbook: save it as CSV",
    ),
    (b"\xFF\xFE\0\0", "this file is UTF-32: save it as UTF-8"),
    (b"\0\0\xFE\xFF", "this file is UTF-32: save it as UTF-8"),
];

/// The text of a file, or why it has none.
pub fn text(file: &[u8]) -> Result<Text, String> {
    if let Some((_, why)) = NO_TABLES.iter().find(|(first, _)| file.starts_with(first)) {
        return Err(why.to_string());
    }
    if let Some(rest) = file.strip_prefix(b"\xEF\xBB\xBF") {
        let encoding = match std::str::from_utf8(rest) {
            Ok(_) => Encoding::Utf8,
            Err(_) => Encoding::NotUtf8,
        };
        return Ok(of_bytes(encoding, rest));
    }
    if let Some(rest) = file.strip_prefix(b"\xFF\xFE") {
        return utf16(Encoding::Utf16Little, rest, u16::from_le_bytes);
    }
    if let Some(rest) = file.strip_prefix(b"\xFE\xFF") {
        return utf16(Encoding::Utf16Big, rest, u16::from_be_bytes);
    }
    if is_utf16(file) {
        let why = "this file is UTF-16 without a mark: save it as UTF-8 or with a mark";
        return Err(why.to_string());
    }
    Ok(of_bytes(Encoding::Bytes, file))
}

fn of_bytes(encoding: Encoding, bytes: &[u8]) -> Text {
    Text {
        encoding,
        bytes: bytes.to_vec(),
    }
}

fn utf16(encoding: Encoding, bytes: &[u8], unit: fn([u8; 2]) -> u16) -> Result<Text, String> {
    let pairs = bytes.chunks_exact(2);
    if !pairs.remainder().is_empty() {
        return Err("this file is UTF-16 and ends inside a character".to_string());
    }
    let units = pairs.filter_map(|pair| pair.try_into().ok()).map(unit);
    let text: Result<String, _> = char::decode_utf16(units).collect();
    match text {
        Ok(text) => Ok(of_bytes(encoding, text.as_bytes())),
        Err(_) => Err("this file is UTF-16 and has half a character in it".to_string()),
    }
}

/// Whether every other byte of the most part is zero: figures and letters are so in UTF-16, and no
/// table of bytes has a zero.
fn is_utf16(file: &[u8]) -> bool {
    let zeros_at = |place: usize| {
        let bytes = file.iter().skip(place).step_by(2);
        bytes.filter(|&&byte| byte == 0).count()
    };
    let (even, odd) = (zeros_at(0), zeros_at(1));
    even != odd && even.max(odd) > file.len() / 4
}

#[cfg(test)]
mod tests {
    use super::*;

    fn read(file: &[u8]) -> Result<(Encoding, String), String> {
        let text = text(file)?;
        let shown = String::from_utf8_lossy(&text.bytes).into_owned();
        Ok((text.encoding, shown))
    }

    fn wide(text: &str, unit: fn(u16) -> [u8; 2]) -> Vec<u8> {
        text.encode_utf16().flat_map(unit).collect()
    }

    #[test]
    fn a_mark_tells_the_encoding() {
        let found = |encoding| Ok((encoding, "0,é".to_string()));
        assert_eq!(read("\u{FEFF}0,é".as_bytes()), found(Encoding::Utf8));
        assert_eq!(read("0,é".as_bytes()), found(Encoding::Bytes));
        let little = wide("\u{FEFF}0,é", u16::to_le_bytes);
        assert_eq!(read(&little), found(Encoding::Utf16Little));
        let big = wide("\u{FEFF}0,é", u16::to_be_bytes);
        assert_eq!(read(&big), found(Encoding::Utf16Big));
    }

    #[test]
    fn bytes_stay_as_they_are() {
        let kept = text(b"0,\xE9\x81").expect("bytes");
        assert_eq!(kept, of_bytes(Encoding::Bytes, b"0,\xE9\x81"));
        let marked = text(b"\xEF\xBB\xBF0,\xE9").expect("bytes");
        assert_eq!(marked, of_bytes(Encoding::NotUtf8, b"0,\xE9"));
        assert_eq!(text(b"").expect("nothing").bytes, b"");
    }

    #[test]
    fn utf_16_without_a_mark_is_named() {
        let why = "this file is UTF-16 without a mark: save it as UTF-8 or with a mark";
        for unit in [u16::to_le_bytes, u16::to_be_bytes] {
            assert_eq!(read(&wide("0,Gold,0\r\n", unit)), Err(why.to_string()));
        }
        assert!(read(b"0,Gold\0\0,0,0").is_ok());
    }

    #[test]
    fn what_is_no_text_is_named() {
        let told = |file: &[u8]| read(file).expect_err("no text");
        assert!(told(b"\xFF\xFE0\0,").ends_with("ends inside a character"));
        assert!(told(b"\xFF\xFE\x00\xD8,\0").ends_with("has half a character in it"));
        assert!(told(b"\xFF\xFE\0\0,\0\0\0").starts_with("this file is UTF-32"));
        assert!(told(b"PK\x03\x04").starts_with("this is a workbook"));
        assert!(told(b"Paint Shop Pro Image File\n").contains("Paint Shop Pro"));
    }
}
