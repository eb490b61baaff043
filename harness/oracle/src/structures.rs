//! The parts of Vine's `structures` that are at hand, and stubs for the others.

pub mod ast;
pub mod chart;
pub mod diag;
pub mod resolutions;
pub mod signatures;
pub mod tir;

#[allow(dead_code)]
pub mod types {
    include!(concat!(env!("OUT_DIR"), "/types.rs"));
    pub mod probe;
}

#[allow(dead_code)]
pub mod vir {
    include!(concat!(env!("OUT_DIR"), "/vir.rs"));
}
