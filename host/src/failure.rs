//! How a command ends when it does not end well.

use std::io;

/// What went wrong, with the sentence for it.
#[derive(Debug)]
pub enum Failure {
    /// The library refused the file.
    Refused(String),
    /// The file has no such layer, selection, alpha channel or channel, or is a saved table, which
    /// has less than is asked for.
    Absent(String),
    /// The file and a typed table differ, and the output says where.
    Different,
    /// The words of the command make no sense.
    Use(String),
    /// A file cannot be read, or a table or canvas has no memory.
    Unreadable(String),
    /// The output cannot be written.
    Unwritable(io::Error),
}

impl Failure {
    pub fn status(&self) -> u8 {
        match self {
            Failure::Refused(_) | Failure::Absent(_) | Failure::Different => 1,
            Failure::Use(_) | Failure::Unreadable(_) | Failure::Unwritable(_) => 2,
        }
    }

    /// The sentence, if one is to be shown: a reader that closes its pipe has seen enough.
    pub fn sentence(&self) -> Option<String> {
        match self {
            Failure::Different => None,
            Failure::Refused(sentence)
            | Failure::Absent(sentence)
            | Failure::Unreadable(sentence) => Some(sentence.clone()),
            Failure::Use(sentence) => Some(format!("wrong use: {}", sentence)),
            Failure::Unwritable(error) if error.kind() == io::ErrorKind::BrokenPipe => None,
            Failure::Unwritable(error) => Some(format!("cannot write: {}", error)),
        }
    }
}

/// Reading maps its errors itself, so an error that is only passed on is one of writing.
impl From<io::Error> for Failure {
    fn from(error: io::Error) -> Failure {
        Failure::Unwritable(error)
    }
}

#[cfg(test)]
mod tests {
    use super::*;

    #[test]
    fn a_refusal_has_status_1_and_wrong_use_2() {
        assert_eq!(Failure::Refused(String::new()).status(), 1);
        assert_eq!(Failure::Absent(String::new()).status(), 1);
        assert_eq!(Failure::Different.status(), 1);
        assert_eq!(Failure::Use(String::new()).status(), 2);
        assert_eq!(Failure::Unreadable(String::new()).status(), 2);
    }

    #[test]
    fn a_closed_pipe_is_quiet() {
        let closed = Failure::from(io::Error::from(io::ErrorKind::BrokenPipe));
        assert_eq!(closed.sentence(), None);
        assert_eq!(closed.status(), 2);
        let other = Failure::from(io::Error::new(io::ErrorKind::Other, "disk full"));
        assert_eq!(other.sentence().as_deref(), Some("cannot write: disk full"));
    }
}
