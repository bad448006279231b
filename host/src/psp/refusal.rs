//! Why the library refuses: document 01's numbers by their names.

use super::ffi;
use std::error::Error;
use std::fmt::{self, Display, Formatter};

/// The one table of names, of the header's constants and of its words for them.
macro_rules! refusals {
    ($($name:ident, $constant:ident, $meaning:literal;)*) => {
        /// An answer of document 01 that is not 0, by its name in include/psp.h. A later version of
        /// the library may have more of them.
        #[derive(Clone, Copy, Debug, PartialEq, Eq, Hash)]
        #[non_exhaustive]
        pub enum Refusal {
            $(#[doc = $meaning] $name,)*
            /// a number that has no name here, of another version of the library
            Unnamed(u32),
        }

        impl Refusal {
            /// The refusal that a number of document 01 is; none for 0, accepted.
            pub fn of(number: u32) -> Option<Refusal> {
                match number {
                    ffi::ACCEPTED => None,
                    $(ffi::$constant => Some(Refusal::$name),)*
                    _ => Some(Refusal::Unnamed(number)),
                }
            }

            /// Document 01's number.
            pub fn number(self) -> u32 {
                match self {
                    $(Refusal::$name => ffi::$constant,)*
                    Refusal::Unnamed(number) => number,
                }
            }

            /// The header's words for it.
            pub fn meaning(self) -> &'static str {
                match self {
                    $(Refusal::$name => $meaning,)*
                    Refusal::Unnamed(_) => "no number of document 01",
                }
            }
        }
    };
}

refusals! {
    OverLimit, OVER_LIMIT, "too long an input";
    EndsTooSoon, ENDS_TOO_SOON, "ends too soon";
    WrongSignature, WRONG_SIGNATURE, "another signature";
    WrongVersion, WRONG_VERSION, "another version";
    WrongMark, WRONG_MARK, "another mark than a block's";
    WrongLength, WRONG_LENGTH, "a length that cannot be";
    OutOfPlace, OUT_OF_PLACE, "a known id where it may not stand";
    WrongField, WRONG_FIELD, "a field outside its values";
    NotExpected, NOT_EXPECTED, "one too many, or no such channel here";
    Missing, MISSING, "a parent closes incomplete";
    NotReadable, NOT_READABLE, "a compression that is not read";
    TableFull, TABLE_FULL, "table full";
    PlaneNoRoom, PLANE_NO_ROOM, "destination shorter than the plane";
    PlaneCount128, PLANE_COUNT_128, "a packet's count is 128";
    PlaneDataMissing, PLANE_DATA_MISSING,
        "packet data missing, or the plane not full at the stream's end";
    PlaneTooMuch, PLANE_TOO_MUCH, "more than the plane has left";
    PlaneUnknownCode, PLANE_UNKNOWN_CODE, "code not 0 or 1";
    PlaneRawLength, PLANE_RAW_LENGTH, "a raw channel of another length than the plane";
    PlaneOverLimit, PLANE_OVER_LIMIT, "plane length over the limit";
    PlaneOutside, PLANE_OUTSIDE, "a stored part outside the input";
    PackNoRoom, PACK_NO_ROOM, "destination shorter than the packed form";
    PackOverLimit, PACK_OVER_LIMIT, "plane over the limit";
    CanvasWrong, CANVAS_WRONG, "no such canvas: its sides, or its length";
    RectWrong, RECT_WRONG, "no such rectangle";
    PlaneWrong, PLANE_WRONG, "a row or a plane that is not the rectangle's";
    NoPalette, NO_PALETTE, "depth 24";
    NoRamp, NO_RAMP, "a ramp of another length than 1,024 would have to stand in";
    NoLayer, NO_LAYER, "k is past the last layer, or no layer stands at the place";
    NoSelection, NO_SELECTION, "no selection, or none at the place";
    NoAlpha, NO_ALPHA,
        "k is past the last alpha channel, or none stands at the place";
    SavedLength, SAVED_LENGTH,
        "a length that is not the file's, or that four bytes cannot say";
    SavedVersion, SAVED_VERSION, "another version of a saved table";
    SavedCount, SAVED_COUNT, "a count that is not the length's";
    SavedNoRoom, SAVED_NO_ROOM, "destination too short";
    SavedSides, SAVED_SIDES, "a version that is not that of the sides";
}

/// A listing that was refused: why, at which place of the input (a wrong field at its first byte),
/// and how many entries were found before it. They stand in front of the lent table, and of the lent
/// records.
#[derive(Clone, Copy, Debug, PartialEq, Eq)]
pub struct RefusedListing {
    pub refusal: Refusal,
    pub place: usize,
    pub count: usize,
}

/// A plane that was refused: why, and at which place inside its stored channel or stream.
#[derive(Clone, Copy, Debug, PartialEq, Eq)]
pub struct RefusedPlane {
    pub refusal: Refusal,
    pub place: usize,
}

impl Display for Refusal {
    fn fmt(&self, f: &mut Formatter<'_>) -> fmt::Result {
        write!(f, "refused: {}, {}", self.number(), self.meaning())
    }
}

impl Display for RefusedListing {
    fn fmt(&self, f: &mut Formatter<'_>) -> fmt::Result {
        write_at(f, self.refusal, self.place)
    }
}

impl Display for RefusedPlane {
    fn fmt(&self, f: &mut Formatter<'_>) -> fmt::Result {
        write_at(f, self.refusal, self.place)
    }
}

fn write_at(f: &mut Formatter<'_>, refusal: Refusal, place: usize) -> fmt::Result {
    let (number, meaning) = (refusal.number(), refusal.meaning());
    write!(f, "refused: {} at {}, {}", number, place, meaning)
}

impl Error for Refusal {}
impl Error for RefusedListing {}
impl Error for RefusedPlane {}

#[cfg(test)]
mod tests {
    use super::*;

    #[test]
    fn every_number_of_document_01_has_a_name() {
        let named = |number: &u32| !matches!(Refusal::of(*number), Some(Refusal::Unnamed(_)));
        let names: Vec<u32> = (0..100).filter(named).collect();
        let numbers = (0..=12).chain(20..=27).chain(30..=31).chain(40..=47);
        let numbers = numbers.chain(70..=74);
        assert_eq!(names, numbers.collect::<Vec<u32>>());
    }

    #[test]
    fn names_numbers_and_words_are_those_of_the_header() {
        let header = include_str!("../../../include/psp.h");
        let answers = header
            .split("/* ---- ")
            .find(|part| part.starts_with("Answers"));
        let lines = answers.unwrap().lines();
        let mut count = 0;
        for constant in lines.filter_map(|line| line.strip_prefix("#define PSP_")) {
            let words: Vec<&str> = constant.split_whitespace().take(2).collect();
            let refusal = Refusal::of(words[1].parse().unwrap());
            let name = refusal.map_or("accepted".to_string(), |named| format!("{:?}", named));
            assert_eq!(words[0].replace('_', ""), name.to_uppercase());
            let said = refusal.map(|named| format!("/* {} */", named.meaning()));
            assert!(constant.ends_with(said.as_deref().unwrap_or("")));
            count += 1;
        }
        assert_eq!(count, 36);
    }

    #[test]
    fn a_refusal_gives_its_number_back() {
        assert_eq!(Refusal::of(0), None);
        for number in 1..100 {
            assert_eq!(Refusal::of(number).map(Refusal::number), Some(number));
        }
        assert_eq!(Refusal::of(45), Some(Refusal::NoLayer));
        assert_eq!(Refusal::of(46), Some(Refusal::NoSelection));
        assert_eq!(Refusal::of(47), Some(Refusal::NoAlpha));
        assert_eq!(Refusal::of(70), Some(Refusal::SavedLength));
        assert_eq!(Refusal::of(74), Some(Refusal::SavedSides));
    }

    #[test]
    fn a_refusal_is_said_with_number_place_and_meaning() {
        let refusal = Refusal::EndsTooSoon;
        assert_eq!(refusal.to_string(), "refused: 2, ends too soon");
        let (place, count) = (517, 3);
        let listing = RefusedListing {
            refusal,
            place,
            count,
        };
        assert_eq!(listing.to_string(), "refused: 2 at 517, ends too soon");
        let plane = RefusedPlane {
            refusal: Refusal::PlaneCount128,
            place: 3,
        };
        assert_eq!(
            plane.to_string(),
            "refused: 21 at 3, a packet's count is 128"
        );
    }
}
