//! The usage.

use std::io::Read;

use super::command::{Answer, Stop};

pub fn run(_: &[String], _: &mut dyn Read) -> Answer {
    Err(Stop::Usage)
}
