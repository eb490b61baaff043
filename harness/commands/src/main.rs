//! The harness's commands: an image on standard input, or one written to standard output.

mod commands;
#[cfg(test)]
mod tests;

use std::{
    env,
    io::{self, Read, Write},
    process::ExitCode,
};

use harness::{generate::Family, samples::SAMPLES};

use commands::{
    COMMANDS,
    command::{Answer, Command, Stop},
    words::{family_name, named, sample_name},
};

fn main() -> ExitCode {
    let words: Vec<String> = env::args_os().skip(1).map(|word| word.to_string_lossy().into_owned()).collect();
    let Outcome { mut status, out, mut err } = outcome(&words, &mut io::stdin());
    let mut stdout = io::stdout();
    if let Err(why) = stdout.write_all(&out).and_then(|()| stdout.flush()) {
        (status, err) = (1, format!("{why}\n"));
    }
    if !err.is_empty() {
        eprint!("harness: {err}");
    }
    ExitCode::from(status)
}

/// The exit status, and what goes to standard output and to standard error.
#[derive(Debug, PartialEq, Eq)]
struct Outcome {
    status: u8,
    out: Vec<u8>,
    err: String,
}

fn outcome(words: &[String], input: &mut dyn Read) -> Outcome {
    let (status, out, err) = match answer(words, input) {
        Ok(bytes) => (0, bytes, String::new()),
        Err(Stop::Usage) => (0, usage().into_bytes(), String::new()),
        Err(Stop::Refused(code, place)) => {
            (0, format!("refused {code} {place}\n").into_bytes(), String::new())
        }
        Err(Stop::Misuse(why)) => (2, vec![], format!("{why}\n{}", usage())),
        Err(Stop::Failed { status, why }) => (status, vec![], why + "\n"),
    };
    Outcome { status, out, err }
}

/// The bytes that the words of a command line ask for.
fn answer(words: &[String], input: &mut dyn Read) -> Answer {
    let (name, arguments) = words.split_first().ok_or_else(|| Stop::Misuse("no command".into()))?;
    let command = named(&COMMANDS, name, "command", |command| command.name.into())?;
    let needed = command.arguments.iter().filter(|argument| !argument.starts_with('[')).count();
    if !(needed..=command.arguments.len()).contains(&arguments.len()) {
        let takes =
            if command.arguments.is_empty() { "no arguments".into() } else { command.arguments.join(" ") };
        return Err(Stop::Misuse(format!("{name} takes {takes}")));
    }
    (command.run)(arguments, input)
}

fn usage() -> String {
    let mut text = "usage:\n".to_string();
    for Command { name, arguments, help, .. } in &COMMANDS {
        let call = [&[*name], *arguments].concat().join(" ");
        text += &format!("  harness {call:21}  {help}\n");
    }
    let samples: Vec<String> = SAMPLES.iter().map(sample_name).collect();
    let families: Vec<String> = Family::ALL.iter().map(family_name).collect();
    text + &format!("samples: {}\nfamilies: {}\n", samples.join(" "), families.join(" "))
}
