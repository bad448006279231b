//! The tests of the file header, in document 01's order.

use crate::fields::{self, FILE_HEADER, SIGNATURE};
use crate::psp::ffi::{ENDS_TOO_SOON, INPUT_LIMIT, OVER_LIMIT, WRONG_SIGNATURE, WRONG_VERSION};
use crate::sheet::{self, Sheet};
use crate::words::{counted, grouped, hexadecimal};

/// Writes a line a test; none where the listing stopped at one.
pub fn tested(input: &[u8], sheet: &mut Sheet) -> Option<()> {
    sheet.line(length(input));
    sheet.goes_on(OVER_LIMIT, 0)?;
    sheet.goes_on(ENDS_TOO_SOON, 0)?;
    let words = format!("the signature{}", difference(input));
    let line = sheet::bytes(input, 0, SIGNATURE.len(), &words);
    sheet.test(WRONG_SIGNATURE, 0, line)?;
    let (major, minor) = fields::version(input)?;
    let words = format!("version {}.{}: only 3.0 is read", major, minor);
    let place = SIGNATURE.len();
    sheet.test(WRONG_VERSION, place, sheet::bytes(input, place, 4, &words))
}

/// How long an input is; of a longer one than the limit, no more than that was read.
fn length(input: &[u8]) -> String {
    let is_over = input.len() > INPUT_LIMIT;
    format!(
        "0: {}{} are there: the file header takes {}, and at most {} are read",
        counted(input.len(), "byte"),
        if is_over { " or more" } else { "" },
        FILE_HEADER,
        grouped(INPUT_LIMIT as i64)
    )
}

/// What the signature must be, and where an input has other bytes.
fn difference(input: &[u8]) -> String {
    let both = SIGNATURE.iter().zip(input).enumerate();
    let other = both.filter(|(_, (wanted, found))| wanted != found);
    let other: Vec<String> = other.map(|(place, _)| place.to_string()).collect();
    match other.is_empty() {
        true => String::new(),
        false => format!(
            ": it must be {}, and differs at {}",
            hexadecimal(&SIGNATURE, 1),
            other.join(", ")
        ),
    }
}
