//! In place of the commands that ask the port, in a build without it.

use std::io::Read;

use super::command::{Answer, Stop};

pub fn run(_: &[String], _: &mut dyn Read) -> Answer {
    let why = "this command needs the port's library: build the harness with the feature port";
    Err(Stop::Failed { status: 2, why: why.into() })
}
