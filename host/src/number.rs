//! Whole numbers as they are typed.

use std::num::IntErrorKind;

/// A whole number with spaces around it or none, or why a field is none.
pub fn whole(field: &[u8]) -> Result<i64, &'static str> {
    let word = std::str::from_utf8(field).unwrap_or_default();
    word.trim()
        .parse()
        .map_err(|error: std::num::ParseIntError| match error.kind() {
            IntErrorKind::PosOverflow | IntErrorKind::NegOverflow => "has too many digits",
            _ => "is no whole number",
        })
}

#[cfg(test)]
mod tests {
    use super::*;

    #[test]
    fn spaces_and_signs_are_read() {
        for (typed, number) in [(" 7 ", 7), ("-8", -8), ("+8", 8), ("007", 7), ("-0", 0)] {
            assert_eq!(whole(typed.as_bytes()), Ok(number));
        }
    }

    #[test]
    fn anything_else_is_none() {
        for typed in [
            &b""[..],
            b" ",
            b"O",
            b"1.0",
            b"1,0",
            b"1 0",
            b"- 8",
            b"\xA07",
        ] {
            assert_eq!(whole(typed), Err("is no whole number"));
        }
        assert_eq!(whole(b"9223372036854775808"), Err("has too many digits"));
    }
}
