//! Where a command prints.

use std::fs;
use std::io::{self, BufWriter, Stdout, Write};

/// Standard output, gathered; it ends with a flush, whose error is the command's.
pub fn standard() -> BufWriter<Stdout> {
    BufWriter::new(io::stdout())
}

/// A sentence on standard error; if that is closed too, nobody is left to tell.
pub fn say(sentence: &str) {
    let _ = writeln!(io::stderr(), "psp: {}", sentence);
}

/// Whether an output, named as in /dev, is a terminal.
pub fn is_terminal(output: &str) -> bool {
    let target = fs::canonicalize(output).unwrap_or_default();
    let target = target.to_string_lossy();
    target.starts_with("/dev/pts/") || target.starts_with("/dev/tty")
}

/// Whether an output, named likewise, goes into a file.
pub fn is_file(output: &str) -> bool {
    fs::metadata(output).map_or(false, |data| data.is_file())
}

/// A line on standard error that is written over, and only if that is a terminal; it is cleared
/// before anything else is said.
pub struct Progress {
    on_terminal: bool,
}

impl Progress {
    pub fn new() -> Progress {
        Progress {
            on_terminal: is_terminal("/dev/stderr"),
        }
    }

    pub fn show(&self, state: &str) {
        if self.on_terminal {
            let _ = write!(io::stderr(), "\r{} ...\x1B[K", state);
        }
    }

    pub fn clear(&self) {
        if self.on_terminal {
            let _ = write!(io::stderr(), "\r\x1B[K");
        }
    }
}

impl Drop for Progress {
    fn drop(&mut self) {
        self.clear();
    }
}
