//! What `psp layers` and `psp alphas` are asked for: a file, and the form of its table.

use crate::arguments::{Arguments, Known};
use crate::failure::Failure;
use std::ffi::OsString;

pub struct Asked {
    pub file: OsString,
    pub form: Form,
}

#[derive(Clone, Copy, Debug, PartialEq, Eq)]
pub enum Form {
    /// Aligned columns, with the saved rectangles.
    Saved,
    /// The same with the border rectangles.
    Border,
    Csv,
    Json,
}

impl Form {
    /// The option that asks for it, if one does.
    pub fn option(self) -> Option<&'static str> {
        match self {
            Form::Saved => None,
            Form::Border => Some("--border"),
            Form::Csv => Some("--csv"),
            Form::Json => Some("--json"),
        }
    }
}

impl Asked {
    /// By the words of a command; of its options only one is given.
    pub fn of(command: &str, words: &[OsString]) -> Result<Asked, Failure> {
        let options = ["--border", "--csv", "--json"];
        let arguments = Arguments::parse(words, &options.map(Known::Flag))?;
        let line = format!("{} FILE [--border | --csv | --json]", command);
        let [file] = arguments.operands(&line)?;
        let form = match options.map(|option| arguments.option(option).is_some()) {
            [false, false, false] => Form::Saved,
            [true, false, false] => Form::Border,
            [false, true, false] => Form::Csv,
            [false, false, true] => Form::Json,
            _ => {
                let several = "only one of --border, --csv and --json is given";
                return Err(Failure::Use(several.to_string()));
            }
        };
        Ok(Asked { file, form })
    }
}

#[cfg(test)]
mod tests {
    use super::*;

    fn asked(words: &[&str]) -> Result<Form, String> {
        let words: Vec<OsString> = words.iter().map(OsString::from).collect();
        let asked = Asked::of("alphas", &words);
        let sentence = |failure: Failure| failure.sentence().unwrap_or_default();
        asked.map(|asked| asked.form).map_err(sentence)
    }

    #[test]
    fn one_form_is_asked_for() {
        assert_eq!(asked(&["a"]), Ok(Form::Saved));
        assert_eq!(asked(&["--border", "a"]), Ok(Form::Border));
        assert_eq!(asked(&["a", "--csv", "--csv"]), Ok(Form::Csv));
        assert_eq!(asked(&["a", "--json"]), Ok(Form::Json));
        let several = "wrong use: only one of --border, --csv and --json is given";
        assert_eq!(asked(&["a", "--json", "--csv"]), Err(several.to_string()));
        let forms = [Form::Saved, Form::Border, Form::Csv, Form::Json];
        for option in forms.iter().filter_map(|form| form.option()) {
            let form = asked(&["a", option]).expect("a form");
            assert_eq!(form.option(), Some(option));
        }
        let line = "wrong use: the command is psp alphas FILE [--border | --csv | --json]";
        assert_eq!(asked(&["a", "b"]), Err(line.to_string()));
    }
}
