//! The table of docs/BENCHMARK.md.

use std::io::Read;

use harness::bench::{ROUNDS, subjects, table};

use super::command::{Answer, failed};

pub fn run(_: &[String], _: &mut dyn Read) -> Answer {
    if cfg!(debug_assertions) {
        return Err(failed("a debug build measures nothing: run it with --release"));
    }
    Ok(table(&subjects(), port::check, ROUNDS).into_bytes())
}
