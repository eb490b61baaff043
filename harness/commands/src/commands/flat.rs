//! An image normalised by Vine's own code.

use std::io::Read;

use super::{command::Answer, input};

pub fn run(_: &[String], input: &mut dyn Read) -> Answer {
    Ok(input::flat(input)?.encode())
}
