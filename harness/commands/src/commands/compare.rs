//! The port's check against the harness's own.

use std::io::Read;

use harness::compare::{compare, images};

use super::{
    command::{Answer, failed},
    words::number,
};

pub fn run(arguments: &[String], _: &mut dyn Read) -> Answer {
    let n = arguments.first().map_or(Ok(20_000), |word| number(word, "number of images"))?;
    let counts = compare(images(n), port::check).map_err(failed)?;
    Ok(format!("{counts}\n").into_bytes())
}
