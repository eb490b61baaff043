//! The parts of Vine's `components` that are at hand, and a stub for the Finder.

#[allow(dead_code)]
pub mod analyzer {
    include!(concat!(env!("OUT_DIR"), "/analyzer.rs"));
    pub mod probe;
}

pub mod finder;

#[allow(dead_code)]
pub mod normalizer {
    include!(concat!(env!("OUT_DIR"), "/normalizer.rs"));
}
