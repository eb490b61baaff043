//! How long a `check` takes beside the harness's own and beside reading the bytes once: in one process, by turns.

use std::{
    fmt::{self, Display},
    hint::black_box,
    time::{Duration, Instant},
};

use crate::{
    check::{Answer, check},
    generate::{self, Family, Rng, deepest, largest},
    image::{MAXIMA, SIZES, port},
    samples::SAMPLES,
};

/// How often everything is measured; the medians are over these.
pub const ROUNDS: usize = 41;
/// How often in a round; the fastest counts, since another process may have had the core for the others.
const TRIES: usize = 5;
/// The least time of one measurement, far above the clock's own grain.
const LEAST: Duration = Duration::from_micros(200);

const HEAD: &str = "\
| image | bytes | kind | port, ns | Rust, ns | reading once, ns | Rust / port | port / reading once |
|---|--:|---|--:|--:|--:|---|---|
";

pub type Check = fn(&[u8]) -> Answer;
/// What is measured: a check, or reading.
type Work<'a> = &'a dyn Fn(&[u8]) -> u64;

/// An image and where it comes from.
pub struct Subject {
    pub name: String,
    pub bytes: Vec<u8>,
}

/// A median, and the least and the most of what it was taken from.
#[derive(Clone, Copy, Debug, PartialEq)]
struct Spread {
    median: f64,
    least: f64,
    most: f64,
}

/// The times are medians in nanoseconds; a ratio is of two times of one round.
struct Row {
    asked: f64,
    own: f64,
    reading: f64,
    own_to_asked: Spread,
    asked_to_reading: Spread,
}

/// Accepted images of both kinds, from 104 bytes to the most that there can be; and one that is refused for its last record.
pub fn subjects() -> Vec<Subject> {
    let mut all = accepted();
    all.push(subject("largest flat, refused", refused()));
    all
}

fn accepted() -> Vec<Subject> {
    let samples = SAMPLES.iter().filter(|(name, _)| ["example", "loop"].contains(name));
    let mut all: Vec<Subject> = samples.map(|(name, make)| subject(name, make().encode())).collect();
    all.push(about(Family::FlatSmall, 500));
    all.push(about(Family::LayeredSmall, 500));
    for size in [2_000, 8_000, 30_000] {
        all.push(about(Family::FlatLarge, size));
        all.push(about(Family::LayeredLarge, size));
    }
    all.push(subject("deepest", deepest().encode()));
    all.push(subject("largest flat", largest(&mut Rng::new(0), false).encode()));
    all.push(subject("largest", largest(&mut Rng::new(0), true).encode()));
    all.sort_by_key(|subject| subject.bytes.len());
    all
}

/// The largest flat image, with a kind that no port has in its last.
fn refused() -> Vec<u8> {
    let mut bytes = largest(&mut Rng::new(0), false).encode();
    let last = last_port(bytes.len());
    bytes[last + 2] = port::ERROR + 1;
    bytes
}

/// Where the last port stands: as many refs as there can be follow it.
fn last_port(length: usize) -> usize {
    length - MAXIMA[7] * SIZES[7] - SIZES[6]
}

fn subject(name: &str, bytes: Vec<u8>) -> Subject {
    Subject { name: name.into(), bytes }
}

/// The image of a family's first 200 that is nearest to a size.
fn about(family: Family, size: usize) -> Subject {
    let images = (0..200).map(|seed| (seed, generate::image(family, seed)));
    let (seed, bytes) = images.min_by_key(|(_, image)| image.len().abs_diff(size)).expect("there are 200");
    Subject { name: format!("{family:?} {seed}"), bytes }
}

/// Reads every byte once: their sum.
fn reading(image: &[u8]) -> u64 {
    image.iter().map(|&byte| byte as u64).sum()
}

fn folded(Answer { code, place, kind }: Answer) -> u64 {
    code as u64 + place as u64 + kind as u64
}

/// The table of docs/BENCHMARK.md: a line for each image.
pub fn table(subjects: &[Subject], asked: Check, rounds: usize) -> String {
    let mut text = HEAD.to_string();
    for Subject { name, bytes } in subjects {
        let kind = ["refused", "flat", "layered"][check(bytes).kind as usize];
        let Row { asked, own, reading, own_to_asked, asked_to_reading } = row(bytes, asked, rounds);
        text += &format!("| {name} | {} | {kind} | {asked:.0} | {own:.0} | {reading:.0} ", bytes.len());
        text += &format!("| {own_to_asked} | {asked_to_reading} |\n");
    }
    text
}

fn row(image: &[u8], asked: Check, rounds: usize) -> Row {
    // both behind a pointer that the compiler does not see through
    let [asked, own] = [asked, check as Check].map(black_box);
    let works: [Work; 3] = [&|image| folded(asked(image)), &|image| folded(own(image)), &reading];
    let times = works.map(|work| enough(work, image));
    let mut took = [const { Vec::<f64>::new() }; 3];
    for round in 0..rounds {
        let best = fastest(works, times, image, round);
        took.iter_mut().zip(best).for_each(|(took, best)| took.push(best));
    }
    let [asked, own, reading] = took;
    Row {
        own_to_asked: spread(ratios(&own, &asked)),
        asked_to_reading: spread(ratios(&asked, &reading)),
        asked: spread(asked).median,
        own: spread(own).median,
        reading: spread(reading).median,
    }
}

/// The nanoseconds that a call of each takes in a round, by turns.
fn fastest(works: [Work; 3], times: [u32; 3], image: &[u8], round: usize) -> [f64; 3] {
    let mut best = [f64::INFINITY; 3];
    for n in 0..3 * TRIES {
        // another is first in the next round
        let which = (n + round) % 3;
        best[which] = best[which].min(per_call(works[which], image, times[which]));
    }
    best
}

/// How many calls take the least time of a measurement.
fn enough(work: Work, image: &[u8]) -> u32 {
    let mut times = 1;
    while measured(work, image, times) < LEAST {
        times *= 2;
    }
    times
}

fn measured(work: Work, image: &[u8], times: u32) -> Duration {
    let start = Instant::now();
    for _ in 0..times {
        black_box(work(black_box(image)));
    }
    start.elapsed()
}

fn per_call(work: Work, image: &[u8], times: u32) -> f64 {
    measured(work, image, times).as_nanos() as f64 / times as f64
}

fn ratios(these: &[f64], those: &[f64]) -> Vec<f64> {
    these.iter().zip(those).map(|(this, that)| this / that).collect()
}

fn spread(mut numbers: Vec<f64>) -> Spread {
    numbers.sort_by(f64::total_cmp);
    Spread { median: numbers[numbers.len() / 2], least: numbers[0], most: numbers[numbers.len() - 1] }
}

impl Display for Spread {
    fn fmt(&self, f: &mut fmt::Formatter<'_>) -> fmt::Result {
        write!(f, "{:.2} ({:.2}..{:.2})", self.median, self.least, self.most)
    }
}

#[cfg(test)]
mod tests {
    use crate::image::LARGEST;

    use super::*;

    #[test]
    fn a_spread_is_the_middle_and_the_ends() {
        let Spread { median, least, most } = spread(vec![3.0, 1.0, 9.0, 2.0, 4.0]);
        assert_eq!((median, least, most), (3.0, 1.0, 9.0));
        assert_eq!(spread(vec![1.0, 2.5, 2.0]).to_string(), "2.00 (1.00..2.50)");
    }

    #[test]
    fn the_subjects_go_from_the_example_to_the_largest_and_the_last_port_refuses_one() {
        let all = accepted();
        assert!(all.iter().all(|subject| check(&subject.bytes).code == 0));
        assert_eq!((all[0].bytes.len(), all[all.len() - 1].bytes.len()), (104, LARGEST));
        let image = refused();
        assert_eq!(check(&image), Answer { code: 6, place: last_port(image.len()) as u32, kind: 0 });
    }

    #[test]
    fn a_line_for_each_image() {
        let all: Vec<Subject> = subjects().into_iter().take(2).collect();
        let table = table(&all, check, 3);
        assert_eq!(table.lines().count(), 2 + all.len(), "{table}");
        assert!(table.contains("| example | 104 | flat |"), "{table}");
    }
}
