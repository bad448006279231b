//! What was found of a file: all of an accepted one, and of a refused one what stands before the
//! refusal's place.

use crate::accepted::{self, Input};
use crate::artwork::Artwork;
use crate::columns::Columns;
use crate::failure::Failure;
use crate::holder::{Holder, Which};
use crate::output;
use crate::psp::ffi::{ImageChunk, Listed, ACCEPTED};
use std::io::{self, Write};

pub struct Found {
    pub image: Option<ImageChunk>,
    /// Which layers, selection and alpha channels there are, in file order.
    pub there: Vec<Which>,
    /// Those of them that were asked for.
    pub holders: Vec<Holder>,
    refusal: Option<Refusal>,
}

struct Refusal {
    answer: Listed,
    failure: Failure,
}

impl Found {
    pub fn of(input: Input, is_asked: impl Fn(Which) -> bool) -> Result<Found, Failure> {
        let (answer, table) = accepted::list(&input.bytes)?;
        let refusal = match answer.number {
            ACCEPTED => None,
            _ => Some(Refusal {
                answer,
                failure: input.refused(&answer, &table),
            }),
        };
        let file = Artwork::listed(input, &table);
        Ok(Found {
            image: file.image(),
            there: file.there().collect(),
            holders: file.holders_of(is_asked)?,
            refusal,
        })
    }

    /// The first line of what is shown of a refused file, so that nobody takes it for the whole.
    pub fn mark(&self, out: &mut dyn Write) -> io::Result<()> {
        match &self.refusal {
            Some(Refusal { answer, .. }) => writeln!(
                out,
                "refused: {} at {}; found before it:",
                answer.number, answer.place
            ),
            None => Ok(()),
        }
    }

    /// Prints a table of what was found; of a refused file it needs a row.
    pub fn print(self, table: &Columns) -> Result<(), Failure> {
        let mut out = output::standard();
        if self.refusal.is_none() || table.has_rows() {
            self.mark(&mut out)?;
            for line in table.lines() {
                writeln!(out, "{}", line)?;
            }
        }
        out.flush()?;
        self.end()
    }

    /// The refusal, if there is one.
    pub fn end(self) -> Result<(), Failure> {
        match self.refusal {
            Some(refusal) => Err(refusal.failure),
            None => Ok(()),
        }
    }
}
