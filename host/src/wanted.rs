//! What is wanted of a file, by words as they were typed, and what there is if there is no such one.

use crate::failure::Failure;
use crate::holder::Which;
use crate::name;
use crate::words::counted;
use std::ffi::{OsStr, OsString};

/// A whole number as it was typed, and its value where a file may have it.
#[derive(Clone, Debug, PartialEq, Eq)]
pub struct Number {
    typed: String,
    value: Option<u32>,
}

impl Number {
    pub fn of(word: &OsStr, title: &str) -> Result<Number, Failure> {
        let typed = word.to_string_lossy();
        let unsigned = typed.strip_prefix(|sign| sign == '-' || sign == '+');
        let digits = unsigned.unwrap_or(&typed);
        if digits.is_empty() || !digits.bytes().all(|byte| byte.is_ascii_digit()) {
            let wrong = format!("{} {} is no number", title, name::file(word));
            return Err(Failure::Use(wrong));
        }
        let value = typed.parse().ok();
        Ok(Number {
            typed: typed.into_owned(),
            value,
        })
    }

    pub fn is(&self, number: u32) -> bool {
        self.value == Some(number)
    }

    pub fn value(&self) -> Option<u32> {
        self.value
    }

    pub fn typed(&self) -> &str {
        &self.typed
    }
}

/// A layer, the selection or an alpha channel.
#[derive(Clone, Debug, PartialEq, Eq)]
pub enum Wanted {
    Layer(Number),
    Selection,
    Alpha(Number),
}

impl Wanted {
    /// What the first words want, `selection`, `alpha RANK` or `LAYER`, and the words behind them;
    /// none where there are too few.
    pub fn of(words: &[OsString]) -> Result<Option<(Wanted, &[OsString])>, Failure> {
        match words {
            [kind, rest @ ..] if kind == "selection" => Ok(Some((Wanted::Selection, rest))),
            [kind, rank, rest @ ..] if kind == "alpha" => {
                Ok(Some((Wanted::Alpha(Number::of(rank, "RANK")?), rest)))
            }
            [kind] if kind == "alpha" => Ok(None),
            [layer, rest @ ..] => Ok(Some((Wanted::Layer(Number::of(layer, "LAYER")?), rest))),
            [] => Ok(None),
        }
    }

    pub fn is(&self, which: Which) -> bool {
        match (self, which) {
            (Wanted::Layer(number), Which::Layer(k)) => number.is(k),
            (Wanted::Selection, Which::Selection) => true,
            (Wanted::Alpha(number), Which::Alpha(k)) => number.is(k),
            _ => false,
        }
    }

    /// There is no such one among these.
    pub fn absent(&self, there: impl Iterator<Item = Which>) -> Failure {
        let (mut layers, mut alphas) = (0, 0);
        for which in there {
            match which {
                Which::Layer(_) => layers += 1,
                Which::Alpha(_) => alphas += 1,
                Which::Selection => {}
            }
        }
        Failure::Absent(match self {
            Wanted::Layer(number) => format!("no layer {}: the file has {}", number.typed, layers),
            Wanted::Selection => format!(
                "no selection: the file has {} and {}",
                counted(layers, "layer"),
                counted(alphas, "alpha channel")
            ),
            Wanted::Alpha(rank) => {
                format!("no alpha channel {}: the file has {}", rank.typed, alphas)
            }
        })
    }
}

/// A layer has other channels, which are given as bitmap and channel.
pub fn no_channel(which: Which, has: &[(u32, u32)], [bitmap, channel]: [&Number; 2]) -> Failure {
    let pair = |(bitmap, channel): &(u32, u32)| format!("{}/{}", bitmap, channel);
    let has: Vec<String> = has.iter().map(pair).collect();
    Failure::Absent(format!(
        "{} has channels {} (bitmap/channel) and no {}/{}",
        which,
        has.join(", "),
        bitmap.typed,
        channel.typed
    ))
}

#[cfg(test)]
mod tests {
    use super::*;

    fn number(word: &str) -> Number {
        Number::of(OsStr::new(word), "LAYER").expect("a number")
    }

    fn told(failure: Failure) -> (u8, String) {
        (failure.status(), failure.sentence().unwrap_or_default())
    }

    #[test]
    fn a_number_may_be_any_that_can_be_typed() {
        assert!(number("12").is(12) && number("+3").is(3) && number("007").is(7));
        for word in ["-1", "4294967296", "99999999999999999999999999"] {
            assert!((0..99).all(|layer| !number(word).is(layer)), "{}", word);
        }
    }

    #[test]
    fn what_is_no_number_is_wrong_use() {
        for word in ["red", "", "-", "1.0", "0x1", "1 ", "--1"] {
            let failure = Number::of(OsStr::new(word), "LAYER").expect_err("no number");
            let sentence = format!("wrong use: LAYER \"{}\" is no number", word);
            assert_eq!(told(failure), (2, sentence));
        }
    }

    /// What is wanted by these words, and how many words are left.
    fn wanted(words: &[&str]) -> Option<(Wanted, usize)> {
        let words: Vec<OsString> = words.iter().map(OsString::from).collect();
        let wanted = Wanted::of(&words).expect("good words");
        wanted.map(|(wanted, rest)| (wanted, rest.len()))
    }

    #[test]
    fn a_kind_is_wanted_by_its_word_and_a_layer_by_its_number() {
        let layer = Some((Wanted::Layer(number("4")), 2));
        assert_eq!(wanted(&["4", "1", "0"]), layer);
        assert_eq!(wanted(&["selection"]), Some((Wanted::Selection, 0)));
        let alpha = Some((Wanted::Alpha(number("-2")), 1));
        assert_eq!(wanted(&["alpha", "-2", "x"]), alpha);
        assert_eq!(wanted(&["alpha"]), None);
        assert_eq!(wanted(&[]), None);
        let words = ["alpha".into(), "red".into()];
        let wrong = Wanted::of(&words).expect_err("no number");
        let sentence = "wrong use: RANK \"red\" is no number";
        assert_eq!(told(wrong), (2, sentence.to_string()));
    }

    #[test]
    fn equal_numbers_of_two_kinds_are_not_one() {
        let all = [Which::Layer(2), Which::Selection, Which::Alpha(2)];
        let is = |wanted: Wanted| all.map(|which| wanted.is(which));
        assert_eq!(is(Wanted::Layer(number("2"))), [true, false, false]);
        assert_eq!(is(Wanted::Selection), [false, true, false]);
        assert_eq!(is(Wanted::Alpha(number("2"))), [false, false, true]);
        assert_eq!(is(Wanted::Alpha(number("3"))), [false; 3]);
    }

    #[test]
    fn what_is_missing_is_told_with_what_there_is() {
        let layers = || (0..11).map(Which::Layer);
        let told = |wanted: Wanted, alphas| {
            let there = layers().chain((0..alphas).map(Which::Alpha));
            told(wanted.absent(there))
        };
        let large = "no layer 99999999999: the file has 11".to_string();
        assert_eq!(told(Wanted::Layer(number("99999999999")), 2), (1, large));
        let below = "no layer -1: the file has 11".to_string();
        assert_eq!(told(Wanted::Layer(number("-1")), 0), (1, below));
        let rank = "no alpha channel 2: the file has 2".to_string();
        assert_eq!(told(Wanted::Alpha(number("2")), 2), (1, rank));
        let none = "no selection: the file has 11 layers and 1 alpha channel".to_string();
        assert_eq!(told(Wanted::Selection, 1), (1, none));
    }

    #[test]
    fn a_missing_channel_is_told_with_those_that_there_are() {
        let has = [(0, 1), (0, 2), (0, 3), (1, 0)];
        let missing = no_channel(Which::Layer(3), &has, [&number("2"), &number("-1")]);
        let expected = "layer 3 has channels 0/1, 0/2, 0/3, 1/0 (bitmap/channel) and no 2/-1";
        assert_eq!(told(missing), (1, expected.to_string()));
    }
}
