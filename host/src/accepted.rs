//! A file in memory, listed by the library.

use crate::answer::{self, Refused};
use crate::asked::Asked;
use crate::buffer;
use crate::failure::Failure;
use crate::identity::Identity;
use crate::name;
use crate::psp::ffi::{ACCEPTED, ENTRY_NUMBERS, INPUT_LIMIT};
use crate::psp::{self, Listed};
use crate::saved;
use crate::words;
use crate::working::Working;
use std::ffi::OsStr;
use std::fs::File;
use std::io;
use std::mem;
use std::os::unix::io::AsFd;

/// A view lists again without a table, so any room will do.
pub const ROOM: usize = usize::MAX;

/// The bytes of a file, and what is known of it besides.
pub struct Input {
    pub bytes: Vec<u8>,
    /// Which file it is, if it is one that writing could destroy.
    pub identity: Option<Identity>,
    /// The size of a regular file, of which no more than the limit is read.
    pub size: Option<u64>,
}

impl Input {
    /// Reads a file, or standard input for `-`; one byte over the limit is enough to be refused.
    pub fn read(file: &OsStr) -> Result<Input, Failure> {
        let fail = |error: io::Error| unreadable(file, &error.to_string());
        let open = open(file).map_err(fail)?;
        let data = open.metadata().map_err(fail)?;
        let identity = Identity::of_regular(&data);
        let size = identity.map(|_| data.len());
        let working = Working::reading(file, size);
        let bytes = contents(&open, size, &working).map_err(fail)?;
        Ok(Input {
            bytes,
            identity,
            size,
        })
    }

    /// Reads a file for a command that a saved table is not enough for.
    pub fn artwork(file: &OsStr, command: &str) -> Result<Input, Failure> {
        let input = Input::read(file)?;
        match saved::is(&input.bytes) {
            true => Err(saved::needs_artwork(file, command)),
            false => Ok(input),
        }
    }

    /// Reads a file whose table is asked for; in any form but the plain one it must be artwork.
    pub fn asked(command: &str, asked: &Asked) -> Result<Input, Failure> {
        match asked.form.option() {
            Some(option) => Input::artwork(&asked.file, &format!("{} {}", command, option)),
            None => Input::read(&asked.file),
        }
    }

    /// The refusal of its listing.
    pub fn refused(&self, answer: &Listed, table: &[u32]) -> Failure {
        refused(answer, table, &self.bytes, self.size)
    }
}

/// The bytes of a file, in room for its size and one byte more where that is known: what came too
/// late to be seen is read as well.
fn contents(file: &File, size: Option<u64>, working: &Working) -> io::Result<Vec<u8>> {
    let mut bytes = Vec::new();
    let read = |bytes: &mut Vec<u8>, limit: u64| {
        if let Some(size) = size {
            let room = size.saturating_add(1).min(limit);
            buffer::reserve(bytes, room.saturating_sub(bytes.len() as u64))?;
        }
        buffer::read_on(file, bytes, limit, |done| working.done(done))
    };
    let limit = INPUT_LIMIT as u64 + 1;
    read(&mut bytes, limit)?;
    // Of artwork nothing more is read; a saved table may be longer than the longest one.
    match saved::rest(&bytes, size) {
        0 => {}
        rest => read(&mut bytes, limit.saturating_add(rest))?,
    }
    Ok(bytes)
}

/// Standard input as a file tells which file it is redirected from.
fn open(file: &OsStr) -> io::Result<File> {
    if file == "-" {
        return io::stdin().as_fd().try_clone_to_owned().map(File::from);
    }
    File::open(file)
}

/// The bytes of a file, or of standard input for `-`.
pub fn read(file: &OsStr) -> Result<Vec<u8>, Failure> {
    Ok(Input::read(file)?.bytes)
}

pub fn unreadable(file: &OsStr, why: &str) -> Failure {
    Failure::Unreadable(format!("cannot read {}: {}", name::file(file), why))
}

/// Numbers or bytes that are all zero; a failure where memory has no room for them.
pub fn zeros<T: Clone + Default>(length: usize) -> Result<Vec<T>, Failure> {
    let bytes = length.saturating_mul(mem::size_of::<T>());
    let no_memory = |_| Failure::Unreadable(words::no_memory(bytes));
    Vec::<T>::new()
        .try_reserve_exact(length)
        .map_err(no_memory)?;
    // It has just been there. Zeros that are asked for as such take memory only where they are
    // written, so a large canvas with a small plane takes little.
    Ok(vec![T::default(); length])
}

/// Lists an input of any permitted size: counted first, so that the table has room for every entry.
pub fn list(input: &[u8]) -> Result<(Listed, Vec<u32>), Failure> {
    let _working = Working::listing(input);
    let needed = psp::count(input, ROOM).count;
    let mut table = zeros(needed.saturating_mul(ENTRY_NUMBERS))?;
    let answer = psp::list(input, &mut table);
    Ok((answer, table))
}

/// The refusal of a listing, with what the input has at its place, and the table has before it.
pub fn refused(answer: &Listed, table: &[u32], input: &[u8], size: Option<u64>) -> Failure {
    let refused = Refused {
        number: answer.number,
        place: answer.place,
        table,
        input,
        size,
    };
    Failure::Refused(refused.sentence())
}

/// What the library shows, if its answer is good.
pub fn good<T>(number: u32, shown: T) -> Result<T, Failure> {
    match number {
        ACCEPTED => Ok(shown),
        _ => Err(Failure::Refused(answer::refusal(number))),
    }
}
