//! Generated images taken through the oracle as document 01's program takes them: check, normalise, analyse, report.

use std::{
    fmt::{self, Debug, Display},
    ops::{AddAssign, Range},
    panic::{AssertUnwindSafe, catch_unwind, resume_unwind},
};

use crate::{
    bridge::{self, Analysis, Normalised},
    check::{Answer, FLAT, Room, Rule, check, for_analyse, for_normalise},
    generate::{self, Family},
    image::{Image, LARGEST, MAXIMA},
    report::Report,
    worklist,
};

const DONE: u32 = 0;
/// "a count of the result over its maximum".
const EXCESS: u32 = 9;
/// The span that the program analyses with.
const SPAN: u32 = 0;
/// A variable enters with its first effect that is not Never, and can rise three times from there.
const MOST_TAKES: u32 = 4;

/// What came up on a walk.
#[derive(Clone, Debug, Default, PartialEq, Eq)]
pub struct Counts {
    /// What the program answers, by code; under 1, which it never says, the calls that were lent too little.
    pub codes: [u64; 10],
    pub normalised: u64,
    /// Reports, by verdict.
    pub verdicts: [u64; 2],
    /// Diagnostics, by kind less 1; also those that a report does not keep.
    pub diagnostics: [u64; 5],
    /// How often a variable was taken for one local, at most.
    pub taken: u32,
}

/// Walks the images that a family has for these seeds. Where something does not hold, or the Rust panics, it panics and
/// says on which image.
pub fn walk(family: Family, seeds: Range<u64>) -> Counts {
    walk_all(seeds.map(|seed| ((family, seed), generate::image(family, seed))))
}

/// Walks all small images.
pub fn walk_small() -> Counts {
    walk_all(generate::exhaustive_small().enumerate().map(|(n, image)| (("small", n), image.encode())))
}

fn walk_all<Name: Debug>(images: impl Iterator<Item = (Name, Vec<u8>)>) -> Counts {
    let mut counts = Counts::default();
    for (name, bytes) in images {
        if let Err(cause) = catch_unwind(AssertUnwindSafe(|| counts.walk(&bytes))) {
            eprintln!("the image is {name:?}");
            resume_unwind(cause);
        }
    }
    counts
}

impl Counts {
    /// What a walk should meet and this one did not: codes, kinds of diagnostics, verdicts.
    pub fn missing(&self) -> Vec<String> {
        let absent = |what: &'static str, first: usize, counts: &[u64]| -> Vec<String> {
            let numbers = (first..).zip(counts).filter(|&(_, &count)| count == 0);
            numbers.map(|(number, _)| format!("{what} {number}")).collect()
        };
        let codes = absent("code", 0, &self.codes);
        [codes, absent("diagnostic", 1, &self.diagnostics), absent("verdict", 0, &self.verdicts)].concat()
    }

    fn walk(&mut self, bytes: &[u8]) {
        self.lend_too_little(bytes);
        let answer = check(bytes);
        let code = match answer {
            Answer { code: DONE, kind: FLAT, .. } => self.analyse(&Image::decode(bytes)),
            Answer { code: DONE, .. } => self.normalise(&Image::decode(bytes)),
            refused => refused.code,
        };
        self.codes[code as usize] += 1;
    }

    /// The calls say so before they look at the image.
    fn lend_too_little(&mut self, bytes: &[u8]) {
        let room = Room { output: LARGEST, work: true };
        for short in [Room { output: LARGEST - 1, ..room }, Room { work: false, ..room }] {
            for answer in [for_normalise(bytes, short), for_analyse(bytes, short)] {
                assert_eq!(answer, Answer { code: Rule::Room.code(), place: 0, kind: 0 });
                self.codes[answer.code as usize] += 1;
            }
        }
    }

    /// The program's code for an accepted layered image.
    fn normalise(&mut self, image: &Image) -> u32 {
        let expected = generate::normalised_counts(image);
        let over = expected.iter().zip(MAXIMA).any(|(&count, max)| count > max);
        let Normalised::Flat(flat) = bridge::normalise(image) else {
            assert!(over, "{expected:?} is no excess");
            return EXCESS;
        };
        assert_eq!(flat.counts(), expected, "the counts of the normalised image");
        assert!(flat.layers.is_empty());
        let bytes = flat.encode();
        assert_eq!(check(&bytes), Answer { code: DONE, place: 0, kind: FLAT });
        assert_eq!(Image::decode(&bytes), flat);
        self.normalised += 1;
        self.analyse(&flat)
    }

    /// The program's code for an accepted flat image.
    fn analyse(&mut self, image: &Image) -> u32 {
        let analysis = bridge::analyse(image, SPAN);
        assert!(bridge::is_as_analyze(&analysis, image, SPAN), "the probed run is the Rust's own");
        self.solve(&analysis);
        let report = bridge::report(image, SPAN);
        assert_eq!(Report::decode(&report.encode()).as_ref(), Some(&report));
        self.verdicts[report.verdict as usize] += 1;
        for diagnostic in analysis.processed.iter().flat_map(|local| &local.diagnostics) {
            self.diagnostics[diagnostic.kind as usize - 1] += 1;
        }
        DONE
    }

    fn solve(&mut self, analysis: &Analysis) {
        for local in &analysis.processed {
            let solution = worklist::solve(&analysis.relations, &local.seeds, local.inverse);
            assert!(solution.effects == local.effects, "the worklist's effects are the Rust's");
            let taken = solution.taken.into_iter().max().unwrap_or(0);
            assert!(taken <= MOST_TAKES, "a variable was taken {taken} times");
            self.taken = self.taken.max(taken);
        }
    }
}

impl AddAssign for Counts {
    fn add_assign(&mut self, other: Counts) {
        let add = |sums: &mut [u64], more: &[u64]| sums.iter_mut().zip(more).for_each(|(sum, n)| *sum += n);
        add(&mut self.codes, &other.codes);
        add(&mut self.verdicts, &other.verdicts);
        add(&mut self.diagnostics, &other.diagnostics);
        self.normalised += other.normalised;
        self.taken = self.taken.max(other.taken);
    }
}

impl Display for Counts {
    fn fmt(&self, f: &mut fmt::Formatter<'_>) -> fmt::Result {
        let Counts { codes, normalised, verdicts, diagnostics, taken } = self;
        write!(f, "codes 0 to 9 {codes:?}, {normalised} normalised, verdicts 0 and 1 {verdicts:?}, ")?;
        write!(f, "diagnostics 1 to 5 {diagnostics:?}, a variable taken {taken} times at most")
    }
}
