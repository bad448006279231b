//! The words of a command: options, and operands in their order.

use crate::failure::Failure;
use crate::name;
use std::ffi::{OsStr, OsString};

/// An option that a command knows.
#[derive(Clone, Copy)]
pub enum Known {
    /// Stands alone.
    Flag(&'static str),
    /// Has its value in the next word.
    Valued(&'static str),
}

pub struct Arguments {
    operands: Vec<OsString>,
    options: Vec<(&'static str, OsString)>,
}

impl Arguments {
    /// Sorts words by what the command knows; a lone `-` is an operand, a number below 0, and all
    /// words behind `--`.
    pub fn parse(words: &[OsString], known: &[Known]) -> Result<Arguments, Failure> {
        let mut arguments = Arguments {
            operands: Vec::new(),
            options: Vec::new(),
        };
        let mut words = words.iter();
        while let Some(word) = words.next() {
            let text = word.to_string_lossy();
            if text == "--" {
                arguments.operands.extend(words.by_ref().cloned());
            } else if is_operand(&text) {
                arguments.operands.push(word.clone());
            } else {
                let option = option(word, known)?;
                arguments.options.push(match option {
                    Known::Flag(name) => (name, OsString::new()),
                    Known::Valued(name) => (name, value(name, words.next())?),
                });
            }
        }
        Ok(arguments)
    }

    /// The operands, which must be as many as a command's line names.
    pub fn operands<const N: usize>(&self, line: &str) -> Result<[OsString; N], Failure> {
        let wrong = |_| Failure::Use(format!("the command is psp {}", line));
        self.operands.clone().try_into().map_err(wrong)
    }

    /// The operands, of a command that takes now more and now fewer.
    pub fn all(&self) -> &[OsString] {
        &self.operands
    }

    /// An option's value, the last one if it is given again.
    pub fn option(&self, name: &str) -> Option<&OsStr> {
        let mut options = self.options.iter().rev();
        let (_, value) = options.find(|(known, _)| *known == name)?;
        Some(value)
    }
}

fn is_operand(text: &str) -> bool {
    let is_number = |digits: &str| digits.bytes().all(|byte| byte.is_ascii_digit());
    text.strip_prefix('-').map_or(true, is_number)
}

fn option(word: &OsStr, known: &[Known]) -> Result<Known, Failure> {
    let is_it = |known: &&Known| match known {
        Known::Flag(name) | Known::Valued(name) => word == *name,
    };
    let unknown = || Failure::Use(format!("no option {}", name::file(word)));
    known.iter().find(is_it).copied().ok_or_else(unknown)
}

fn value(name: &str, word: Option<&OsString>) -> Result<OsString, Failure> {
    let missing = || Failure::Use(format!("{} has no value", name));
    word.cloned().ok_or_else(missing)
}

#[cfg(test)]
mod tests {
    use super::*;

    const KNOWN: [Known; 2] = [Known::Flag("--border"), Known::Valued("-o")];

    fn parse(words: &[&str]) -> Result<Arguments, Failure> {
        let words: Vec<OsString> = words.iter().map(OsString::from).collect();
        Arguments::parse(&words, &KNOWN)
    }

    fn sentence<T>(result: Result<T, Failure>) -> String {
        let failure = result.err().and_then(|failure| failure.sentence());
        failure.unwrap_or_default()
    }

    #[test]
    fn options_may_stand_anywhere() {
        let arguments = parse(&["--border", "a", "-o", "-x", "-"]).expect("good words");
        assert_eq!(arguments.operands::<2>("").expect("two"), ["a", "-"]);
        assert_eq!(arguments.option("-o"), Some(OsStr::new("-x")));
        assert!(arguments.option("--border").is_some());
    }

    #[test]
    fn behind_two_dashes_stand_operands() {
        let arguments = parse(&["--", "--border", "--"]).expect("good words");
        assert_eq!(
            arguments.operands::<2>("").expect("two"),
            ["--border", "--"]
        );
        assert!(arguments.option("--border").is_none());
    }

    #[test]
    fn a_number_below_0_is_no_option() {
        let arguments = parse(&["-1", "-", "-99999999999"]).expect("good words");
        let operands = arguments.operands::<3>("").expect("three");
        assert_eq!(operands, ["-1", "-", "-99999999999"]);
        assert!(parse(&["-1x"]).is_err());
    }

    #[test]
    fn what_no_command_knows_is_told() {
        assert_eq!(
            sentence(parse(&["--new\x1b"])),
            "wrong use: no option \"--new\\u{1b}\""
        );
        assert_eq!(sentence(parse(&["-o"])), "wrong use: -o has no value");
        let one = parse(&["a"]).expect("good words");
        let expected = "wrong use: the command is psp list FILE";
        assert_eq!(sentence(one.operands::<2>("list FILE")), expected);
    }
}
