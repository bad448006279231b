//! A file that is read while it grows.

use crate::accepted;
use crate::buffer::{self, BLOCK};
use crate::failure::Failure;
use crate::growth::{Comparison, Look};
use crate::identity::Identity;
use crate::name;
use crate::psp::ffi::INPUT_LIMIT;
use crate::working::Working;
use std::ffi::{OsStr, OsString};
use std::fs::{self, File, Metadata, OpenOptions};
use std::io::{self, Read, Seek, SeekFrom};
use std::os::unix::fs::{MetadataExt, OpenOptionsExt};

/// Linux's number on x86-64 and Arm: opening a pipe then waits for nobody.
const O_NONBLOCK: i32 = 0o4000;

pub struct Growing {
    path: OsString,
    file: File,
    identity: Identity,
    seen: Seen,
    pub bytes: Vec<u8>,
}

/// What tells of a change without reading: length, and the time of the last one.
#[derive(Clone, Copy, PartialEq, Eq)]
struct Seen {
    length: u64,
    changed: (i64, i64),
}

impl Seen {
    fn of(data: &Metadata) -> Seen {
        Seen {
            length: data.len(),
            changed: (data.mtime(), data.mtime_nsec()),
        }
    }
}

impl Growing {
    /// Opens a regular file and reads what there is of it.
    pub fn open(path: &OsStr) -> Result<Growing, Failure> {
        let fail = |error: io::Error| accepted::unreadable(path, &error.to_string());
        // A pipe is not even opened, since its writer would take that for a reader.
        regular(path, &fs::metadata(path).map_err(fail)?)?;
        let opened = OpenOptions::new()
            .read(true)
            .custom_flags(O_NONBLOCK)
            .open(path);
        let file = opened.map_err(fail)?;
        let data = file.metadata().map_err(fail)?;
        regular(path, &data)?;
        let mut growing = Growing {
            path: path.to_os_string(),
            file,
            identity: Identity::of(&data),
            seen: Seen::of(&data),
            bytes: Vec::new(),
        };
        let room = data.len().min(INPUT_LIMIT as u64) + 1;
        buffer::reserve(&mut growing.bytes, room).map_err(fail)?;
        growing.more()?;
        Ok(growing)
    }

    pub fn size(&self) -> u64 {
        self.seen.length
    }

    /// Reads what has come since; the whole file where it has changed without growing, or where
    /// zeros are filled.
    pub fn look(&mut self, hole: Option<usize>) -> Result<Look, Failure> {
        let before = self.seen;
        self.see()?;
        if self.seen == before {
            return Ok(Look::Same);
        }
        if self.seen.length == before.length || hole.is_some() {
            return self.again(hole);
        }
        Ok(match self.more()? {
            true => Look::Grown,
            false => Look::Same,
        })
    }

    /// Reads the whole file again; what was read becomes what is there now.
    pub fn again(&mut self, hole: Option<usize>) -> Result<Look, Failure> {
        self.see()?;
        let comparison = match self.compared(hole) {
            Ok(comparison) => comparison,
            Err(error) if error.kind() == io::ErrorKind::UnexpectedEof => {
                return Err(self.shortened());
            }
            Err(error) => return Err(self.unreadable(&error)),
        };
        let has_grown = self.more()?;
        Ok(comparison.look(has_grown))
    }

    /// Compares what was read with what is there, a block at a time.
    fn compared(&mut self, hole: Option<usize>) -> io::Result<Comparison> {
        let working = Working::reading(&self.path, Some(self.seen.length));
        let mut file = &self.file;
        file.seek(SeekFrom::Start(0))?;
        let mut comparison = Comparison::with(hole);
        let (mut place, mut now) = (0, Vec::new());
        for before in self.bytes.chunks_mut(BLOCK) {
            now.resize(before.len(), 0);
            file.read_exact(&mut now)?;
            comparison.block(place, before, &now);
            place += before.len();
            working.done(place as u64);
        }
        Ok(comparison)
    }

    /// Looks whether the path still names the file, and how long it is.
    fn see(&mut self) -> Result<(), Failure> {
        let data = fs::metadata(&self.path);
        let data = data.map_err(|error| self.unreadable(&error))?;
        if Identity::of(&data) != self.identity || data.len() < self.bytes.len() as u64 {
            return Err(self.shortened());
        }
        self.seen = Seen::of(&data);
        Ok(())
    }

    /// Reads what stands behind the bytes that were read, up to one over the limit; whether there
    /// was any.
    fn more(&mut self) -> Result<bool, Failure> {
        let before = self.bytes.len();
        let working = Working::reading(&self.path, Some(self.seen.length));
        let (mut file, limit) = (&self.file, INPUT_LIMIT as u64 + 1);
        let read = file
            .seek(SeekFrom::Start(before as u64))
            .and_then(|_| buffer::read_on(file, &mut self.bytes, limit, |done| working.done(done)));
        match read {
            Ok(()) => Ok(self.bytes.len() > before),
            Err(error) => Err(self.unreadable(&error)),
        }
    }

    fn unreadable(&self, error: &io::Error) -> Failure {
        accepted::unreadable(&self.path, &error.to_string())
    }

    fn shortened(&self) -> Failure {
        accepted::unreadable(&self.path, "it was shortened or replaced")
    }
}

fn regular(path: &OsStr, data: &Metadata) -> Result<(), Failure> {
    if data.is_file() {
        return Ok(());
    }
    let wrong = "follow wants a file that can grow, no pipe, folder or device";
    Err(Failure::Use(format!("{}: {}", wrong, name::file(path))))
}
