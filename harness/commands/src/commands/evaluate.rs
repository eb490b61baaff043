//! The definitions against Vine's own code.

use std::io::Read;

use harness::evaluate::{Counts, cases, evaluate};

use super::{
    command::{Answer, failed},
    words::number,
};

pub fn run(arguments: &[String], _: &mut dyn Read) -> Answer {
    let n = arguments.first().map_or(Ok(12), |word| number(word, "number of images"))?;
    let cases = cases(n);
    let judged = evaluate(&cases).map_err(failed)?;
    let counts = Counts(&cases, &judged);
    let Some(project) = &judged.kept else { return Ok(counts.to_string().into_bytes()) };
    let lines: String = judged.differences.iter().map(|difference| format!("\n{difference}")).collect();
    Err(failed(format!("an answer differs, see {}\n{counts}{lines}", project.display())))
}
