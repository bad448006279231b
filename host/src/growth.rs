//! What to do with the listing of a file that still grows, or is still filled.

use crate::psp::ffi::{
    ACCEPTED, ENDS_TOO_SOON, ENTRY_NUMBERS, OVER_LIMIT, TABLE_FULL, WRONG_FIELD,
};
use std::time::Duration;

/// The next step of a follower.
#[derive(Clone, Copy, Debug, PartialEq, Eq)]
pub enum Step {
    /// The table is full: list again in a larger one.
    Enlarge,
    /// The answer may change yet.
    Wait,
    /// The answer stands, if the file does.
    End,
}

/// The step after an answer, when nothing has changed for a while. Only more input changes 0 and 2,
/// and only more room changes 12; any other refusal changes only where zeros at its place are
/// filled, and one for its size not even then.
pub fn step(number: u32, may_be_filled: bool, quiet: Duration, idle: Duration) -> Step {
    match number {
        TABLE_FULL => Step::Enlarge,
        OVER_LIMIT => Step::End,
        ACCEPTED | ENDS_TOO_SOON if quiet < idle => Step::Wait,
        _ if may_be_filled && quiet < idle => Step::Wait,
        _ => Step::End,
    }
}

/// What is judged reaches no further from a refusal's place: a block header and the longest chunk.
const REACH: usize = 14 + 375;

/// From a wrong field's place the last byte of the longest field, a rectangle; the types behind a
/// channel's plane length, by which it is judged, end sooner.
const FIELD_REACH: usize = 15;

/// So many zeros are no field that happens to be zero: more than a name has.
const HOLE: usize = 512;

/// Where zeros begin that may be filled yet: they stand from inside what a refusal at this place
/// has judged, for 512 bytes or to the end. A file whose room was taken before it was written looks
/// like this.
pub fn hole(input: &[u8], number: u32, place: usize) -> Option<usize> {
    let reach = match number {
        WRONG_FIELD => FIELD_REACH,
        _ => REACH,
    };
    let inside = place.checked_add(zeros_near(input.get(place..)?, reach)?)?;
    // What stands before the place was passed, and may be zeros that are not filled yet.
    let before = input.get(..inside)?.iter().rev();
    inside.checked_sub(before.take_while(|&&byte| byte == 0).count())
}

/// Where such zeros begin behind a place, within a reach.
fn zeros_near(near: &[u8], reach: usize) -> Option<usize> {
    let mut start = 0;
    for (at, &byte) in near.iter().enumerate().take(reach + HOLE) {
        if byte != 0 {
            start = at + 1;
        } else if at + 1 - start == HOLE {
            return Some(start);
        }
    }
    let ends_here = near.len() < reach + HOLE && start < near.len() && start <= reach;
    Some(start).filter(|_| ends_here)
}

/// How a file that is read again differs from what was read before.
#[derive(Clone, Copy, Debug, PartialEq, Eq)]
pub enum Look {
    Same,
    /// What was read stands, and more has come.
    Grown,
    /// Only zeros of the hole have changed.
    Filled,
    /// The first place that has changed.
    Changed(usize),
}

/// What was read before beside what is there now, block by block from the first, so that no more of
/// the file is held twice.
pub struct Comparison {
    hole: Option<usize>,
    differs: bool,
    /// The first place that has changed and is no zero of the hole.
    changed: Option<usize>,
}

impl Comparison {
    /// With zeros that may be filled, from a place on.
    pub fn with(hole: Option<usize>) -> Comparison {
        Comparison {
            hole,
            differs: false,
            changed: None,
        }
    }

    /// Compares the bytes from a place on with as many that are there now, which take their place.
    pub fn block(&mut self, place: usize, before: &mut [u8], now: &[u8]) {
        if before == now {
            return;
        }
        self.differs = true;
        self.changed = self.changed.or_else(|| self.first(place, before, now));
        for (before, now) in before.iter_mut().zip(now) {
            *before = *now;
        }
    }

    fn first(&self, place: usize, before: &[u8], now: &[u8]) -> Option<usize> {
        let hole = self.hole.unwrap_or(usize::MAX);
        let mut pairs = (place..).zip(before.iter().zip(now));
        let is_changed =
            |at: usize, before: u8, now: u8| before != now && (at < hole || before != 0);
        let changed = pairs.find(|(at, (before, now))| is_changed(*at, **before, **now));
        changed.map(|(at, _)| at)
    }

    /// How the file differs, when all that was read has been compared.
    pub fn look(&self, has_grown: bool) -> Look {
        match self.changed {
            Some(at) => Look::Changed(at),
            None if self.differs => Look::Filled,
            None if has_grown => Look::Grown,
            None => Look::Same,
        }
    }
}

/// Whether an answer stands that was to end: of a file that was read again as it was, and of one
/// that has grown and still is to end, since its bytes may never stop coming.
pub fn stands(look: Look, next: Step) -> bool {
    match look {
        Look::Same => true,
        Look::Grown => next == Step::End,
        Look::Filled | Look::Changed(_) => false,
    }
}

/// How many numbers of the printed entries still stand, in whole entries.
pub fn standing(printed: &[u32], listed: &[u32]) -> usize {
    let listed = listed.chunks_exact(ENTRY_NUMBERS);
    let pairs = printed.chunks_exact(ENTRY_NUMBERS).zip(listed);
    let same = pairs.take_while(|(printed, listed)| printed == listed);
    same.count().saturating_mul(ENTRY_NUMBERS)
}

/// A time to wait, from what was typed: seconds, whole or with a decimal point, at most a day.
pub fn seconds(typed: &str) -> Option<Duration> {
    let seconds: f64 = typed.parse().ok()?;
    if (0.0..=86_400.0).contains(&seconds) {
        Some(Duration::from_secs_f64(seconds))
    } else {
        None
    }
}

#[cfg(test)]
mod tests {
    use super::*;
    use crate::psp::ffi::WRONG_MARK;

    const IDLE: Duration = Duration::from_secs(10);
    const QUIET: Duration = Duration::from_secs(9);

    #[test]
    fn more_input_is_awaited_after_0_and_2_only() {
        for number in 0..=12 {
            let awaited = number == 0 || number == 2;
            let step = step(number, false, QUIET, IDLE);
            assert_eq!(step == Step::Wait, awaited, "{}", number);
        }
    }

    #[test]
    fn a_refusal_in_zeros_is_awaited_unless_it_is_for_size() {
        for number in 0..=11 {
            let step = step(number, true, QUIET, IDLE);
            assert_eq!(step == Step::Wait, number != 1, "{}", number);
        }
        assert_eq!(step(5, true, IDLE, IDLE), Step::End);
    }

    #[test]
    fn a_quiet_file_has_its_answer() {
        assert_eq!(step(0, false, IDLE, IDLE), Step::End);
        assert_eq!(step(2, false, IDLE, IDLE), Step::End);
    }

    #[test]
    fn a_full_table_is_enlarged_however_quiet_the_file() {
        assert_eq!(step(12, true, IDLE, IDLE), Step::Enlarge);
    }

    /// So many bytes that are not zero, then zeros, then others.
    fn bytes(first: usize, zeros: usize, last: usize) -> Vec<u8> {
        [vec![7; first], vec![0; zeros], vec![8; last]].concat()
    }

    /// At a refusal that may have judged a whole chunk.
    fn hole(input: &[u8], place: usize) -> Option<usize> {
        super::hole(input, WRONG_MARK, place)
    }

    #[test]
    fn zeros_to_the_end_are_a_hole() {
        assert_eq!(hole(&bytes(0, 36, 0), 0), Some(0));
        assert_eq!(hole(&bytes(100, 5000, 0), 100), Some(100));
        assert_eq!(hole(&bytes(90, 5000, 0), 100), Some(90));
        assert_eq!(hole(&bytes(110, 1, 0), 100), Some(110));
        assert_eq!(hole(&bytes(489, 1, 0), 100), Some(489));
        assert_eq!(hole(&bytes(490, 1, 0), 100), None);
        assert_eq!(hole(&bytes(490, 5000, 0), 100), None);
        assert_eq!(hole(&bytes(100, 0, 0), 90), None);
        assert_eq!(hole(&bytes(100, 0, 0), 100), None);
        assert_eq!(hole(&bytes(100, 0, 0), 101), None);
    }

    #[test]
    fn a_run_of_zeros_longer_than_a_field_is_a_hole() {
        assert_eq!(hole(&bytes(100, 512, 9), 100), Some(100));
        assert_eq!(hole(&bytes(489, 512, 9), 100), Some(489));
        assert_eq!(hole(&bytes(490, 512, 9), 100), None);
        assert_eq!(hole(&bytes(100, 511, 9000), 100), None);
        // The zeros of a name are no hole, and those behind them may be.
        let named = [bytes(14, 256, 3), bytes(2, 600, 1)].concat();
        assert_eq!(hole(&named, 0), Some(275));
    }

    #[test]
    fn zeros_behind_a_wrong_field_are_no_hole() {
        let hole = |input: &[u8], place| super::hole(input, WRONG_FIELD, place);
        for zeros in [1, 511, 512, 5000] {
            assert_eq!(hole(&bytes(100, zeros, 0), 100), Some(100));
            assert_eq!(
                hole(&bytes(100, zeros, 0), 110),
                Some(100).filter(|_| zeros > 10)
            );
            assert_eq!(hole(&bytes(100, zeros, 0), 85), Some(100));
            assert_eq!(hole(&bytes(100, zeros, 0), 84), None);
        }
        assert_eq!(hole(&bytes(100, 512, 9), 85), Some(100));
        assert_eq!(hole(&bytes(100, 512, 9), 84), None);
    }

    /// What is read again, which is no shorter: the same look by blocks of every size.
    fn look(before: &[u8], now: &[u8], hole: Option<usize>) -> Look {
        let mut looks = (1..=now.len()).map(|size| {
            let mut bytes = before.to_vec();
            let mut comparison = Comparison::with(hole);
            for (index, before) in bytes.chunks_mut(size).enumerate() {
                let place = index * size;
                let now = &now[place..place + before.len()];
                comparison.block(place, before, now);
            }
            assert_eq!(bytes, now[..before.len()]);
            comparison.look(now.len() > before.len())
        });
        let first = looks.next().expect("a block");
        assert!(looks.all(|look| look == first));
        first
    }

    #[test]
    fn what_has_changed_is_found_at_its_first_place() {
        assert_eq!(look(b"abc", b"abc", None), Look::Same);
        assert_eq!(look(b"abc", b"abcd", None), Look::Grown);
        assert_eq!(look(b"abc", b"aXX", None), Look::Changed(1));
        assert_eq!(look(b"a\0\0", b"aX\0d", None), Look::Changed(1));
        assert_eq!(look(b"", b"abc", None), Look::Grown);
        assert_eq!(look(b"abcdef", b"aXcdeX", None), Look::Changed(1));
    }

    #[test]
    fn zeros_of_the_hole_are_filled_and_others_changed() {
        assert_eq!(look(b"a\0\0\0", b"ab\0c", Some(1)), Look::Filled);
        assert_eq!(look(b"a\0\0\0", b"a\0bcd", Some(1)), Look::Filled);
        assert_eq!(look(b"a\0\0\0", b"Xb\0c", Some(1)), Look::Changed(0));
        assert_eq!(look(b"\0a\0\0", b"XabX", Some(2)), Look::Changed(0));
        assert_eq!(look(b"a\0x\0", b"abX\0", Some(1)), Look::Changed(2));
        assert_eq!(look(b"a\0\0", b"a\0\0d", Some(1)), Look::Grown);
    }

    #[test]
    fn growth_alone_keeps_no_final_answer_open() {
        for next in [Step::Enlarge, Step::Wait, Step::End] {
            assert!(stands(Look::Same, next));
            assert_eq!(stands(Look::Grown, next), next == Step::End);
            assert!(!stands(Look::Filled, next));
            assert!(!stands(Look::Changed(0), next));
        }
    }

    #[test]
    fn entries_stand_up_to_the_first_that_differs() {
        const TWO: usize = 2 * ENTRY_NUMBERS;
        let printed: Vec<u32> = (0..42).collect();
        assert_eq!(standing(&printed, &printed), 3 * ENTRY_NUMBERS);
        assert_eq!(standing(&printed, &printed[..TWO]), TWO);
        assert_eq!(standing(&printed[..TWO], &printed), TWO);
        let mut listed = printed.clone();
        listed[TWO - 1] = 99;
        assert_eq!(standing(&printed, &listed), ENTRY_NUMBERS);
        assert_eq!(standing(&[], &listed), 0);
    }

    #[test]
    fn seconds_are_neither_negative_nor_endless() {
        assert_eq!(seconds("10"), Some(IDLE));
        assert_eq!(seconds("0.5"), Some(Duration::from_millis(500)));
        for wrong in ["-1", "nan", "inf", "1e9", "", "x"] {
            assert_eq!(seconds(wrong), None, "{}", wrong);
        }
    }
}
