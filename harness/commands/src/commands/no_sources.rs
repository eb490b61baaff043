//! In place of the commands that ask Vine's own code, in a build without it.

use std::io::Read;

use super::command::{Answer, Stop};

pub fn run(_: &[String], _: &mut dyn Read) -> Answer {
    let why = "this command needs Vine's sources, which were not at hand when the harness was built";
    Err(Stop::Failed { status: 2, why: why.into() })
}
