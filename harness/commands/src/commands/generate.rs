//! The image that a family has for a seed.

use std::io::Read;

use harness::generate::{Family, image};

use super::{
    command::Answer,
    words::{family_name, named, number},
};

pub fn run(arguments: &[String], _: &mut dyn Read) -> Answer {
    let family = named(&Family::ALL, &arguments[0], "family", family_name)?;
    Ok(image(*family, number(&arguments[1], "seed")?))
}
