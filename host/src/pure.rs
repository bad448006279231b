//! The parts of the command that call nothing of the library, as a crate of their own, so that
//! their tests need no archive: `rustc --edition 2021 --test host/src/pure.rs`.

// Here only the tests call them.
#![allow(dead_code)]

mod answer;
mod arguments;
mod asked;
mod beginning;
mod blocks;
mod buffer;
mod collection;
mod columns;
mod csv;
mod destination;
mod dialect;
mod difference;
mod encoding;
mod failure;
mod fields;
mod growth;
mod heading;
mod held;
mod holder;
mod identity;
mod judged;
mod lengths;
mod lines;
mod memory;
#[cfg(test)]
mod mutated;
mod name;
mod named;
mod number;
mod output;
mod parent;
mod pencil;
mod placing;
mod saved;
mod shape;
mod sheet;
mod table;
mod tested;
mod typed;
mod wanted;
mod widen;
mod words;
mod working;

mod psp {
    pub mod ffi;
    pub mod refusal;
}
