//! The picture of one local's relations.

use std::io::Read;

use harness::picture::picture;

use super::{
    command::{Answer, failed},
    input::flat,
    words::number,
};

pub fn run(arguments: &[String], input: &mut dyn Read) -> Answer {
    let local = number(&arguments[0], "local")?;
    let drawn = picture(&flat(input)?, local);
    drawn.map(String::into_bytes).ok_or_else(|| failed(format!("local {local} is not processed")))
}
