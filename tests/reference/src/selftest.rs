//! Checks of this program: document 01's worked values and sample, and a
//! check for each point that its text leaves open or that is easily missed.

mod alphas;
mod forms;
mod generator;
mod known;
mod listing;
mod named;
mod pencil;
mod places;
mod plain;
mod planes;
mod saved;
mod spoiled;
mod views;
mod worked;

use crate::cases;
use crate::clipping;
use crate::library::Reference;
use crate::psp::listing::list;
use crate::psp::planes::{read_packets, PlaneAnswer};

/// Runs all checks and prints those that fail; true if none does.
pub fn report() -> bool {
    let mut checks = Checks {
        done: 0,
        failed: Vec::new(),
    };
    worked::all(&mut checks);
    listing::all(&mut checks);
    known::all(&mut checks);
    planes::all(&mut checks);
    clipping::each(&Reference, &mut |name, holds| checks.that(name, holds));
    forms::all(&mut checks);
    views::all(&mut checks);
    alphas::all(&mut checks);
    places::all(&mut checks);
    spoiled::all(&mut checks);
    let compared = cases::systematic();
    named::all(&mut checks, &compared);
    saved::all(&mut checks, &compared);
    pencil::all(&mut checks, &compared);
    plain::all(&mut checks, &compared);
    generator::all(&mut checks, &compared);
    for name in &checks.failed {
        println!("failed: {}", name);
    }
    println!("{} checks, {} failed", checks.done, checks.failed.len());
    checks.failed.is_empty()
}

pub struct Checks {
    done: usize,
    failed: Vec<String>,
}

impl Checks {
    fn that(&mut self, name: &str, holds: bool) {
        self.done += 1;
        if !holds {
            self.failed.push(name.to_string());
        }
    }

    fn equal<T: PartialEq + std::fmt::Debug>(&mut self, name: &str, got: T, expected: T) {
        self.done += 1;
        if got != expected {
            self.failed
                .push(format!("{}: got {:?}, expected {:?}", name, got, expected));
        }
    }

    /// Number, place and entry count of a listing with ample room.
    fn listing(&mut self, name: &str, input: &[u8], expected: (u32, u64, usize)) {
        let listing = list(input, 512);
        self.equal(
            name,
            (listing.number, listing.place, listing.entries.len()),
            expected,
        );
    }
}

/// A stream's answer, and a destination two bytes longer than the plane.
fn unpacked(stream: &[u8], plane: u64) -> (PlaneAnswer, Vec<u8>) {
    let mut destination = vec![0xEE; plane as usize + 2];
    let answer = read_packets(stream, plane, &mut destination);
    (answer, destination)
}
