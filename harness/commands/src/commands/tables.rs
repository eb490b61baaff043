//! A table of the Rust's own answers, as the text of a definition.

use std::io::Read;

use harness::tables::TABLES;

use super::{command::Answer, words::named};

pub fn run(arguments: &[String], _: &mut dyn Read) -> Answer {
    let table = named(&TABLES, &arguments[0], "table", |table| table.name.into())?;
    Ok(table.text().into_bytes())
}
