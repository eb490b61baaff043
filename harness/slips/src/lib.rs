//! Vine's files and the harness's worklist with slips made in them, between the oracle's stubs and the harness's bridge.
//!
//! build.rs makes the edits of table.rs on copies in OUT_DIR. An edit does something only while its slip is asked for, so
//! that one build has all slips.

use std::cell::Cell;

// Vine's files and the bridge name these crates; what they mean stands at this crate's root.
extern crate self as ivy;
extern crate self as vine;

#[path = "../../oracle/src/components"]
#[allow(dead_code)]
pub mod components {
    pub mod analyzer {
        include!(concat!(env!("OUT_DIR"), "/analyzer.rs"));
        pub mod probe;
    }
    pub mod finder;
    pub mod normalizer {
        include!(concat!(env!("OUT_DIR"), "/normalizer.rs"));
    }
}
#[path = "../../oracle/src/name.rs"]
pub mod name;
#[path = "../../oracle/src/net.rs"]
pub mod net;
#[path = "../../oracle/src/structures"]
#[allow(dead_code)]
pub mod structures {
    pub mod ast;
    pub mod chart;
    pub mod diag;
    pub mod resolutions;
    pub mod signatures;
    pub mod tir;
    pub mod types {
        include!(concat!(env!("OUT_DIR"), "/types.rs"));
        pub mod probe;
    }
    pub mod vir {
        include!(concat!(env!("OUT_DIR"), "/vir.rs"));
    }
}
pub use vine_util::{idx, nat};

#[path = "../../src/bridge.rs"]
pub mod bridge;
#[path = "../../src/image.rs"]
pub mod image;
#[path = "../../src/report.rs"]
pub mod report;
pub mod table;
mod worklist {
    include!(concat!(env!("OUT_DIR"), "/worklist.rs"));
}

thread_local! {
    static MADE: Cell<Option<usize>> = const { Cell::new(None) };
}

/// Whether the slip of this number is to be made: an edit's `SLIP`.
fn is_made(number: usize) -> bool {
    MADE.get() == Some(number)
}

/// `bridge::program` with the slip of this number made.
pub fn program(slip: usize, image: &[u8]) -> Option<(Vec<u8>, Vec<u8>)> {
    MADE.set(Some(slip));
    let answer = bridge::program(image);
    MADE.set(None);
    answer
}
