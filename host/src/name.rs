//! Names as text: a name is bytes, and a terminal obeys some of them.

use std::ffi::OsStr;

/// What Windows-1252 has from 80 to 9F; five of these bytes have no character.
const FROM_80: [char; 32] = [
    '€', '\0', '‚', 'ƒ', '„', '…', '†', '‡', 'ˆ', '‰', 'Š', '‹', 'Œ', '\0', 'Ž', '\0', //
    '\0', '‘', '’', '“', '”', '•', '–', '—', '˜', '™', 'š', '›', 'œ', '\0', 'ž', 'Ÿ',
];

/// A name read as Windows-1252. Bytes without a character that can be seen are written `\x1B`, and
/// a backslash twice, so different names never look alike.
pub fn text(name: &[u8]) -> String {
    let mut text = String::new();
    for &byte in name {
        match visible(byte) {
            Some('\\') => text.push_str("\\\\"),
            Some(character) => text.push(character),
            None => text.push_str(&format!("\\x{:02X}", byte)),
        }
    }
    text
}

/// A name in quotes, which show where it ends; a quote inside it is written `\"`.
pub fn quoted(name: &[u8]) -> String {
    format!("\"{}\"", text(name).replace('"', "\\\""))
}

/// A text in quotes, shown like a name; a character that Windows-1252 has not, and that may look
/// like one that it has, is written `\u{43E}`.
pub fn quoted_text(text: &str) -> String {
    let show = |character| match byte(character) {
        Some(byte) => self::text(&[byte]).replace('"', "\\\""),
        None => format!("\\u{{{:X}}}", u32::from(character)),
    };
    format!("\"{}\"", text.chars().map(show).collect::<String>())
}

/// A file's name in quotes; bytes that are no UTF-8 are written `\xE9`.
pub fn file(name: &OsStr) -> String {
    format!("{:?}", name)
}

/// A name as characters, a byte each: the five bytes of Windows-1252 that have none are the control
/// characters of the same number.
pub fn decoded(name: &[u8]) -> String {
    name.iter().map(|&byte| character(byte)).collect()
}

/// The bytes of a text in Windows-1252, if each of its characters has one.
pub fn encoded(text: &str) -> Option<Vec<u8>> {
    text.chars().map(byte).collect()
}

/// The character of a byte in Windows-1252.
pub fn character(byte: u8) -> char {
    let place = usize::from(byte).checked_sub(0x80);
    match place.and_then(|place| FROM_80.get(place)) {
        Some('\0') | None => char::from(byte),
        Some(&character) => character,
    }
}

/// The byte of a character in Windows-1252, the other way round.
fn byte(of: char) -> Option<u8> {
    match u8::try_from(u32::from(of)) {
        Ok(byte) if character(byte) == of => Some(byte),
        _ => (0x80..=0x9F).find(|&byte| character(byte) == of),
    }
}

/// Whether a terminal may obey a byte that is printed as it is: besides ASCII's control characters
/// those from 80 to 9F, which stand in UTF-8 behind C2, and in other encodings alone.
pub fn moves_terminal(byte: u8) -> bool {
    byte.is_ascii_control() || (0x80..=0x9F).contains(&byte)
}

/// The visible character of a byte, if it has one. A space is let through; the no-break space and
/// the soft hyphen are not, since they look like a space and like nothing.
fn visible(byte: u8) -> Option<char> {
    match character(byte) {
        '\u{A0}' | '\u{AD}' => None,
        character if character.is_control() => None,
        character => Some(character),
    }
}

#[cfg(test)]
mod tests {
    use super::*;

    #[test]
    fn letters_are_windows_1252() {
        assert_eq!(text(b"Caf\xE9 \x80 5"), "Café € 5");
        assert_eq!(text(b"\x9F\x8A\x92"), "ŸŠ’");
    }

    #[test]
    fn no_control_character_reaches_a_terminal() {
        assert_eq!(text(b"\x1B[2Jx\r\n\x7F"), "\\x1B[2Jx\\x0D\\x0A\\x7F");
        let all: Vec<u8> = (0..=255).collect();
        assert!(!text(&all).chars().any(char::is_control));
        assert!(!quoted_text(&decoded(&all)).chars().any(char::is_control));
    }

    #[test]
    fn bytes_that_a_terminal_may_obey_are_known() {
        for byte in *b"\x1B\r\n\x7F\x80\x9B\x9F" {
            assert!(moves_terminal(byte), "{:02X}", byte);
        }
        for byte in *b" a~\xA0\xC2\xE9\xFF" {
            assert!(!moves_terminal(byte), "{:02X}", byte);
        }
    }

    #[test]
    fn different_names_never_look_alike() {
        assert_eq!(text(b"\\x1B"), "\\\\x1B");
        for look in [text, quoted] {
            let mut seen: Vec<String> = (0..=255u8).map(|byte| look(&[byte])).collect();
            seen.sort();
            seen.dedup();
            assert_eq!(seen.len(), 256);
        }
    }

    #[test]
    fn an_empty_name_is_empty() {
        assert_eq!(text(b""), "");
        assert_eq!(quoted(b""), "\"\"");
    }

    #[test]
    fn quotes_show_quotes_and_blanks_at_the_end() {
        assert_eq!(quoted(b"say \"x\" \\ "), r#""say \"x\" \\ ""#);
        assert_eq!(quoted(b"\t\xA0"), r#""\x09\xA0""#);
        assert_eq!(file(OsStr::new("a \"b\" ")), r#""a \"b\" ""#);
        assert_eq!(file(OsStr::new("\x1B[2J")), r#""\u{1b}[2J""#);
    }

    #[test]
    fn letters_of_other_alphabets_are_seen_as_such() {
        assert_eq!(quoted_text("Gold é "), "\"Gold é \"");
        assert_eq!(quoted_text("G\u{43E}ld \"\n"), r#""G\u{43E}ld \"\x0A""#);
    }

    #[test]
    fn bytes_and_characters_go_both_ways() {
        let all: Vec<u8> = (0..=255).collect();
        assert_eq!(encoded(&decoded(&all)), Some(all));
        assert_eq!(decoded(b"\x80\x81\xE9"), "€\u{81}é");
        assert_eq!(encoded("\u{80}"), None);
        assert_eq!(encoded("G\u{43E}ld"), None);
    }
}
