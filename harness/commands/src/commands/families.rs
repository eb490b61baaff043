//! Images of each family through Vine's own code.

use std::io::Read;

use harness::{
    families::{Counts, walk},
    generate::Family,
};

use super::{
    command::Answer,
    words::{family_name, number},
};

pub fn run(arguments: &[String], _: &mut dyn Read) -> Answer {
    let seeds = number(&arguments[0], "number of images")?;
    let (mut text, mut all) = (String::new(), Counts::default());
    for family in Family::ALL {
        let counts = walk(family, 0..seeds);
        text += &format!("{}: {counts}\n", family_name(&family));
        all += counts;
    }
    Ok((text + &format!("in all: {all}\n")).into_bytes())
}
