//! What a command is, and what it answers.

use std::{fmt::Display, io::Read};

pub type Answer = Result<Vec<u8>, Stop>;

/// A command: its name, the names of its arguments (in brackets those that may be left out), what it does.
pub struct Command {
    pub name: &'static str,
    pub arguments: &'static [&'static str],
    pub help: &'static str,
    pub run: fn(&[String], &mut dyn Read) -> Answer,
}

/// Why a command has no answer of its own.
#[derive(Debug, PartialEq, Eq)]
pub enum Stop {
    /// The usage is asked for: said on standard output, status 0.
    Usage,
    /// The image is refused with this code and place: said on standard output, status 0.
    Refused(u32, u32),
    /// The command line asks for what there is not: the usage follows, status 2.
    Misuse(String),
    /// Anything else.
    Failed { status: u8, why: String },
}

pub fn failed(why: impl Display) -> Stop {
    Stop::Failed { status: 1, why: why.to_string() }
}
