//! Vine's analyzer, normalizer and what they stand on, compiled unchanged over small stubs.
//!
//! build.rs lays copies of Vine's files into OUT_DIR. A module that includes one may have a module `probe`
//! beside it, which sees the file's private items. Everything else here stands in for what the files lean on.

// Vine's files name this crate; the stubs for it stand at this crate's root.
extern crate self as ivy;

pub mod components;
pub mod name;
pub mod net;
pub mod structures;

pub use vine_util::{idx, nat};
