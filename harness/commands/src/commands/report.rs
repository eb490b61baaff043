//! The report on an image, by Vine's own code.

use std::io::Read;

use harness::bridge;

use super::{command::Answer, input::flat};

pub fn run(_: &[String], input: &mut dyn Read) -> Answer {
    Ok(bridge::report(&flat(input)?, 0).encode())
}
