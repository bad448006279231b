//! Why a listing ends.

/// Document 01's answer numbers.
#[derive(Clone, Copy)]
pub enum Number {
    OverLimit = 1,
    EndsTooSoon = 2,
    WrongSignature = 3,
    WrongVersion = 4,
    WrongMark = 5,
    WrongLength = 6,
    OutOfPlace = 7,
    WrongField = 8,
    NotExpected = 9,
    Missing = 10,
    NotReadable = 11,
    TableFull = 12,
}

/// A place is one of an input that is not over the limit, so 32 bits hold it, and a result of nothing
/// fits a register.
#[derive(Clone, Copy)]
pub struct Refusal {
    pub number: Number,
    pub place: u32,
}

pub type Walked<T> = Result<T, Refusal>;

#[inline(always)]
pub fn refuse<T>(number: Number, place: usize) -> Walked<T> {
    Err(Refusal {
        number,
        place: place as u32,
    })
}
