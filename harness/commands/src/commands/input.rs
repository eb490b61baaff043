//! The image that a command is asked about.

use std::io::Read;

#[cfg(feature = "oracle")]
use harness::bridge::{self, Normalised};
use harness::{check::check, image::Image};

use super::command::{Stop, failed};

/// The image on the input.
pub fn image(input: &mut dyn Read) -> Result<Image, Stop> {
    let mut bytes = vec![];
    input.read_to_end(&mut bytes).map_err(failed)?;
    let answer = check(&bytes);
    match answer.code {
        0 => Ok(Image::decode(&bytes)),
        code => Err(Stop::Refused(code, answer.place)),
    }
}

/// The image on the input, normalised if it has layers.
#[cfg(feature = "oracle")]
pub fn flat(input: &mut dyn Read) -> Result<Image, Stop> {
    match bridge::flat(image(input)?) {
        Normalised::Flat(image) => Ok(image),
        Normalised::Excess => Err(Stop::Refused(9, 0)),
    }
}
