//! What the words of a command line stand for.

use std::str::FromStr;

use harness::{generate::Family, samples::Sample};

use super::command::Stop;

pub fn named<'a, T>(all: &'a [T], name: &str, what: &str, name_of: fn(&T) -> String) -> Result<&'a T, Stop> {
    all.iter().find(|item| name_of(item) == name).ok_or_else(|| Stop::Misuse(format!("no {what} {name}")))
}

/// An argument that is a number.
pub fn number<N: FromStr>(word: &str, what: &str) -> Result<N, Stop> {
    word.parse().map_err(|_| Stop::Misuse(format!("{word} is no {what}")))
}

pub fn family_name(family: &Family) -> String {
    format!("{family:?}")
}

pub fn sample_name((name, _): &Sample) -> String {
    name.to_string()
}
