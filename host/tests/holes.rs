//! A file that has its length before its content is awaited however much of it is filled: wherever
//! its zeros begin, they stand in the reach of the refusal that they cause. Over sample files of the
//! current folder; built and run by host/check.

extern crate psp as library;

#[path = "../src/growth.rs"]
mod growth;

/// The library with document 01's numbers, under the name that the command's modules use.
mod psp {
    pub use library::ffi;
}

use growth::Step;
use std::fs;
use std::time::Duration;

#[test]
fn a_file_that_is_filled_is_awaited_at_every_length() {
    let second = Duration::from_secs(1);
    for name in [
        "mug", "greys", "bits4", "skips", "palette", "grey521", "alphas", "early",
    ] {
        let whole = fs::read(format!("{}.psp", name)).expect("a sample");
        for length in 0..whole.len() {
            let mut filled = whole[..length].to_vec();
            filled.resize(whole.len(), 0);
            let answer = library::numbers::count(&filled, usize::MAX);
            let hole = growth::hole(&filled, answer.number, answer.place);
            let step = growth::step(answer.number, hole.is_some(), Duration::ZERO, second);
            assert_eq!(
                step,
                Step::Wait,
                "{} bytes of {}: {:?}",
                length,
                name,
                answer
            );
            assert!(hole.map_or(true, |start| start <= length));
        }
    }
}
