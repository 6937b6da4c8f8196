//! The colour stage once more, written from the papers alone, to hold the proved library to.
//!
//! Nothing here is shared with the proved library, and nothing here calls it: the module
//! `library.rs`, which does, is taken in by path where it is needed (the tests, the example).

pub mod generator;
pub mod reference;
