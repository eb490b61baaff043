//! A sample's image.

use std::io::Read;

use harness::samples::SAMPLES;

use super::{
    command::Answer,
    words::{named, sample_name},
};

pub fn run(arguments: &[String], _: &mut dyn Read) -> Answer {
    let (_, make) = named(&SAMPLES, &arguments[0], "sample", sample_name)?;
    Ok(make().encode())
}
