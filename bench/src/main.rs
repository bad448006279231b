//! Figures of the proved library beside its peers, in one process.
//!
//! `figures` prints planes, listings and views, `figures planes` the first of them, `figures reading`
//! the reading of planes alone, `figures listings` listings and views, `figures memory` the stack and
//! the memory of long listings; `figures growth` and `figures longest` print listings, and their stack
//! and memory, up to the longest input. `figures walker SEED COUNT` compares the tuned walker with the
//! library. `figures list LISTER FILE TIMES` and `figures read READER PLANE TIMES` list and read and
//! print nothing, so that a tool can count their instructions; `figures entries FILE` says how many
//! entries such a listing has. Every answer is checked; a wrong one stops the program.

mod agreement;
mod clock;
mod files;
mod growth;
mod listings;
mod measure;
mod memory;
mod packed;
mod packing;
mod pictures;
mod reading;
mod sides;
mod walker;

// On Arm listings, reading and packing are timed, and no more.
#[cfg(target_arch = "x86_64")]
mod placing;
#[cfg(target_arch = "x86_64")]
mod views;

#[allow(dead_code, unused_imports)]
#[path = "../../host/src/psp/lib.rs"]
mod library;

#[path = "../../tests/reference/src"]
mod reference {
    #[allow(dead_code)]
    pub mod psp;
}

// The generator of files, with an implementation of its own: what it needs of it is not what is timed.
#[allow(dead_code)]
#[path = "../../tests/reference/src"]
mod generator {
    pub mod case;
    pub mod cases;
    pub mod opened;
    pub mod psp;
    pub mod random;
    pub mod samples;
    pub mod write;
}

// Its paths start at the root.
use generator::{case, cases, opened, psp, random, samples, write};

use clock::Clock;

fn main() {
    let words: Vec<String> = std::env::args().skip(1).collect();
    let words: Vec<&str> = words.iter().map(String::as_str).collect();
    match words[..] {
        [] => {
            let clock = Clock::open();
            planes(&clock);
            listings(&clock);
        }
        ["planes"] => planes(&Clock::open()),
        ["reading"] => reading::report(&Clock::open()),
        ["listings"] => listings(&Clock::open()),
        ["memory"] => memory::report(),
        ["growth"] => growth::report(&Clock::open()),
        ["longest"] => memory::longest(),
        ["walker", seed, count] => {
            let number = |word: &str| word.parse().expect("SEED and COUNT are numbers");
            agreement::report(number(seed), number(count) as usize);
        }
        ["entries", file] => println!("{}", listings::entries(file)),
        ["list", lister, file, times] => listings::repeat(lister, file, times),
        ["read", reader, plane, times] => reading::repeat(reader, plane, times),
        _ => panic!(
            "usage: figures [planes | reading | listings | memory | growth | longest \
             | walker SEED COUNT | entries FILE | list LISTER FILE TIMES | read READER PLANE TIMES]"
        ),
    }
}

fn planes(clock: &Clock) {
    reading::report(clock);
    packed::report(clock);
    #[cfg(target_arch = "x86_64")]
    placing::report(clock);
}

fn listings(clock: &Clock) {
    agreement::report(1, agreement::FILES);
    listings::report(clock);
    #[cfg(target_arch = "x86_64")]
    views::report(clock);
}
