//! The reference as a library, for the program that is linked with the library
//! under test.

pub mod answers;
pub mod case;
pub mod cases;
pub mod clipping;
pub mod compare;
pub mod library;
pub mod opened;
pub mod psp;
pub mod random;
pub mod samples;
pub mod write;
