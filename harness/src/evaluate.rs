//! The definitions of normalising and analysing, run against Vine's own code by the toolchain's own evaluation.
//!
//! A claim says what a definition answers to an image, and its proof is to compute. The claims stand in crates of
//! a throw-away project, which has the crates that they rest on beside them: `rt ci` there takes these as an earlier one
//! proved them, where the toolchain kept that, and else proves them first.

use std::{
    collections::BTreeMap,
    env,
    fmt::{self, Display},
    fs, io,
    ops::Range,
    path::{Path, PathBuf},
    process::{self, Command},
    sync::atomic::{AtomicU32, Ordering},
};

use crate::{
    bridge::{self, Normalised},
    check::{FLAT, Room, check, for_analyse, for_normalise},
    compare::spread,
    generate::{self, Family},
    image::{Image, LARGEST},
    samples::{CROWDED, SAMPLES},
};

/// The longest generated image that is evaluated, in bytes, where a family has enough so short.
const LONGEST: usize = 600;
/// The longest normalised image that is analysed, and the longest answer that is looked into.
const LONGEST_FLAT: usize = 1500;
/// So many seeds are looked through for each image that is asked for: making an image costs little beside evaluating it,
/// and among more seeds there are shorter ones.
const SEEDS: u64 = 200;
/// The span that flat images are analysed with, short ones with 0 too; it has four different bytes.
const SPAN: u32 = 0x0403_0201;
/// At most so many images stand in one file.
const IN_A_FILE: usize = 20;
/// Of so many differences it is asked where they are, this many numbers at a time before it is asked for one.
const LOOKED_INTO: usize = 3;
const BLOCK: usize = 16;
const EXCESS: u32 = 9;
const SAMPLE: &str = "Sample";
const SMALL: &str = "Small";
const NORMALISED: &str = " normalised";

#[derive(Clone, Copy, Debug, PartialEq, Eq)]
pub enum Call {
    Normalise,
    /// With this span.
    Analyse(u32),
}

/// An image, and what the Rust answers to each call on it: code, place, and the bytes written.
#[derive(Clone, Debug)]
pub struct Case {
    pub family: String,
    pub seed: String,
    pub image: Vec<u8>,
    pub answers: Vec<(Call, Vec<u32>)>,
}

/// An answer of a definition that is not the Rust's.
#[derive(Clone, Debug)]
pub struct Difference {
    pub family: String,
    pub seed: String,
    pub call: Call,
    pub image: Vec<u8>,
    pub oracle: Vec<u32>,
    /// What the definition answers, as far as the toolchain says it.
    pub definition: Vec<String>,
}

/// The samples, of each family n short images, and of each set of small images a quarter as many; behind a layered
/// image the normalised one.
pub fn cases(n: usize) -> Vec<Case> {
    let samples = SAMPLES.iter().chain(&CROWDED);
    let samples = samples.map(|(name, make)| (SAMPLE.into(), name.to_string(), make().encode()));
    let small = generate::SMALL.iter().flat_map(|set| {
        let numbers = spread(|| 0..set.size, n.div_ceil(4));
        numbers.map(|number| (SMALL.into(), format!("{} {number}", set.name), set.image(number).encode()))
    });
    let generated = Family::ALL.into_iter().flat_map(|family| {
        let seeds = short(family, n).into_iter();
        seeds.map(move |seed| (format!("{family:?}"), seed.to_string(), generate::image(family, seed)))
    });
    let all = samples.chain(small).chain(generated);
    all.flat_map(|(family, seed, image)| with_its_flat(family, seed, image)).collect()
}

/// The seeds of a family's first n images of at most LONGEST bytes, or of its n shortest where there are fewer.
fn short(family: Family, n: usize) -> Vec<u64> {
    let length = |seed| generate::image(family, seed).len().max(LONGEST);
    let mut seeds: Vec<_> = (0..SEEDS * n as u64).map(|seed| (length(seed), seed)).collect();
    seeds.sort_unstable();
    seeds.into_iter().take(n).map(|(_, seed)| seed).collect()
}

/// How many images of a family there are, without the normalised ones.
pub fn images(cases: &[Case], family: &str) -> usize {
    cases.iter().filter(|case| case.family == family && !case.seed.ends_with(NORMALISED)).count()
}

fn with_its_flat(family: String, seed: String, image: Vec<u8>) -> Vec<Case> {
    let spans: &[u32] = match check(&image).kind {
        FLAT if image.len() <= LONGEST => &[0, SPAN],
        // each answer to a long image takes seconds
        FLAT => &[SPAN],
        _ => &[0],
    };
    let calls = [Call::Normalise].into_iter().chain(spans.iter().copied().map(Call::Analyse));
    let first = case(family.clone(), seed.clone(), image, calls);
    let flat = match &first.answers[0].1[..] {
        [0, 0, flat @ ..] if flat.len() <= LONGEST_FLAT => {
            let image = flat.iter().map(|&byte| byte as u8).collect();
            Some(case(family, seed + NORMALISED, image, [Call::Analyse(0)]))
        }
        _ => None,
    };
    [first].into_iter().chain(flat).collect()
}

fn case(family: String, seed: String, image: Vec<u8>, calls: impl IntoIterator<Item = Call>) -> Case {
    let answers = calls.into_iter().map(|call| (call, oracle(call, &image))).collect();
    Case { family, seed, image, answers }
}

/// The Rust's answer; to what it never sees, document 01's.
fn oracle(call: Call, image: &[u8]) -> Vec<u32> {
    let room = Room { output: LARGEST, work: true };
    let judged = match call {
        Call::Normalise => for_normalise(image, room),
        Call::Analyse(_) => for_analyse(image, room),
    };
    if judged.code != 0 {
        return vec![judged.code, judged.place];
    }
    let image = Image::decode(image);
    let bytes = match call {
        Call::Analyse(span) => bridge::report(&image, span).encode(),
        Call::Normalise => match bridge::normalise(&image) {
            Normalised::Flat(flat) => flat.encode(),
            Normalised::Excess => return vec![EXCESS, 0],
        },
    };
    [0, 0].into_iter().chain(bytes.into_iter().map(u32::from)).collect()
}

/// What the toolchain finds: an answer that is in neither list is the Rust's.
#[derive(Debug)]
pub struct Judged {
    pub differences: Vec<Difference>,
    /// The family of each answer that takes more steps, or a deeper stack, than the toolchain has.
    pub undecided: Vec<String>,
    /// Where the project is, which stays if there is a difference.
    pub kept: Option<PathBuf>,
}

/// Has the toolchain hold every answer against the definitions'. An error is anything but a verdict.
pub fn evaluate(cases: &[Case]) -> Result<Judged, String> {
    let project = Project::new().map_err(|why| format!("no project could be written: {why}"))?;
    // dealt out, so that no crate has all large images
    let count = cases.len().div_ceil(IN_A_FILE);
    let dealt = |n: usize| cases.iter().enumerate().skip(n).step_by(count);
    let files: Vec<String> = (0..count).map(|n| file(dealt(n))).collect();
    let refused = project.check(&files)?;
    let (mut differences, mut undecided) = (vec![], vec![]);
    for (n, case) in cases.iter().enumerate() {
        for (m, (call, oracle)) in case.answers.iter().enumerate() {
            match refused.get(&claim(n, m)) {
                None => {}
                Some(said) if LIMITS.iter().any(|limit| said.contains(limit)) => {
                    undecided.push(case.family.clone())
                }
                Some(_) => differences.push(difference(case, *call, oracle)),
            }
        }
    }
    if differences.len() + undecided.len() != refused.len() {
        return Err(format!("more than the claims is refused: {refused:?}"));
    }
    differences.sort_by_key(|difference| difference.image.len() + difference.oracle.len());
    let short = differences.iter().take_while(|difference| difference.oracle.len() <= LONGEST_FLAT);
    let looked_into = short.take(LOOKED_INTO).count();
    project.look_into(&mut differences[..looked_into])?;
    let kept = if differences.is_empty() {
        fs::remove_dir_all(&project.root).map_err(|why| why.to_string())?;
        None
    } else {
        Some(project.root)
    };
    Ok(Judged { differences, undecided, kept })
}

fn difference(case: &Case, call: Call, oracle: &[u32]) -> Difference {
    let Case { family, seed, image, .. } = case.clone();
    Difference { family, seed, call, image, oracle: oracle.to_vec(), definition: vec![] }
}

/// What the toolchain says of a claim that it could not tell.
const LIMITS: [&str; 2] = ["stopped at the step limit", "deep recursion"];
const HEAD: &str = "use Rattle.std.specs.Prelude.{List, [], ◌∷◌, ◌≡◌, ℕ, refl, take, drop}
use Rattle.analyzer.proofs.Computed.{analyse_numbers}
use Rattle.normalizer.proofs.Computed.{normalise_numbers}
";

/// A file with a claim for each answer to these cases, which have their numbers with them.
fn file<'a>(cases: impl Iterator<Item = (usize, &'a Case)>) -> String {
    let mut text = HEAD.to_string();
    for (n, case) in cases {
        text += &format!("\n-- {} {}{}", case.family, case.seed, definition(n, &case.image));
        for (m, (call, answer)) in case.answers.iter().enumerate() {
            text += &proof(&claim(n, m), n, &call.on(n), &list(answer));
        }
    }
    text
}

fn definition(n: usize, image: &[u8]) -> String {
    format!("\nunfoldable image{n} : List ℕ\nimage{n} = {}\n", list(image))
}

fn claim(case: usize, answer: usize) -> String {
    format!("claim{case}-{answer}")
}

fn proof(name: &str, image: usize, left: &str, right: &str) -> String {
    format!(
        "\n{name} : {left} ≡ {right}\nunfolding analyse_numbers normalise_numbers image{image}\n{name} = refl\n"
    )
}

fn list<N: Display>(numbers: &[N]) -> String {
    numbers.iter().map(|n| format!("{n} ∷ ")).collect::<String>() + "[]"
}

impl Call {
    /// The definition's answer to an image.
    fn on(self, image: usize) -> String {
        match self {
            Call::Normalise => format!("normalise_numbers image{image}"),
            Call::Analyse(span) => format!("analyse_numbers {span} image{image}"),
        }
    }
}

/// A project with the crates that the claims rest on, and those with the claims.
struct Project {
    root: PathBuf,
    /// The lines of crates.txt for the crates that the claims rest on.
    listed: String,
}

/// The crates that the claims cite.
const CITED: [&str; 2] = ["analyzer", "normalizer"];
/// The crates with the claims, which the toolchain proves side by side.
const OWN: [&str; 4] = ["evaluated0", "evaluated1", "evaluated2", "evaluated3"];
/// A crate has a function, if only for its proof files to be read.
const SOURCE: &str = "#![tactic(auto)]\n\npub fn none() {}\n";

impl Project {
    fn new() -> io::Result<Project> {
        static COUNT: AtomicU32 = AtomicU32::new(0);
        let count = COUNT.fetch_add(1, Ordering::Relaxed);
        let root = env::temp_dir().join(format!("evaluate-{}-{count}", process::id()));
        let repository = Path::new(env!("CARGO_MANIFEST_DIR")).join("..").canonicalize()?;
        fs::create_dir(&root)?;
        // with it the folder is the top of a repository
        fs::create_dir(root.join(".git"))?;
        let handles = repository.join("HANDLES");
        if handles.is_file() {
            fs::copy(handles, root.join("HANDLES"))?;
        }
        let all = fs::read_to_string(repository.join("crates.txt"))?;
        let mut listed = String::new();
        for (name, line) in below(&all, &CITED) {
            listed += &format!("{line}\n");
            for part in ["src", "specs", "proofs"] {
                let inside = Path::new("crates").join(name).join(part);
                if repository.join(&inside).is_dir() {
                    copy(&repository.join(&inside), &root.join(&inside))?;
                }
            }
        }
        Ok(Project { root, listed })
    }

    /// The claims in these files that the toolchain refuses, each with what it says.
    fn check(&self, files: &[String]) -> Result<BTreeMap<String, String>, String> {
        let own = &OWN[..OWN.len().min(files.len())];
        self.write(own, files).map_err(|why| format!("no claims could be written: {why}"))?;
        let output = Command::new("rt").arg("ci").current_dir(&self.root).output();
        let output = output.map_err(|why| format!("rt could not be run: {why}"))?;
        let [said, noted] = [&output.stdout, &output.stderr].map(|out| String::from_utf8_lossy(out));
        let refused: Option<Vec<_>> = own.iter().map(|name| verdict(&said, name)).collect();
        let refused = refused.map(|all| all.into_iter().flatten().collect::<BTreeMap<_, _>>());
        match (output.status.code(), refused) {
            (Some(0), Some(refused)) if refused.is_empty() => Ok(refused),
            (Some(1), Some(refused)) if !refused.is_empty() => Ok(refused),
            _ => Err(format!("no verdict in {}, {}: {said}{noted}", self.root.display(), output.status)),
        }
    }

    fn write(&self, own: &[&str], files: &[String]) -> io::Result<()> {
        let mut listed = self.listed.clone();
        for name in OWN {
            let folder = self.root.join("crates").join(name);
            if folder.is_dir() {
                fs::remove_dir_all(&folder)?;
            }
        }
        for (k, name) in own.iter().enumerate() {
            listed += &format!("{name}: {}\n", CITED.join(" "));
            let [source, proofs] =
                ["src", "proofs"].map(|part| self.root.join("crates").join(name).join(part));
            fs::create_dir_all(&source)?;
            fs::write(source.join("lib.rt"), SOURCE)?;
            fs::create_dir(&proofs)?;
            let mut modules = String::new();
            for (n, file) in files.iter().enumerate().skip(k).step_by(own.len()) {
                fs::write(proofs.join(format!("Part{n}.antt")), file)?;
                modules += &format!("pub mod Part{n}\n");
            }
            fs::write(proofs.join("Lib.antt"), modules)?;
        }
        fs::write(self.root.join("crates.txt"), listed)
    }

    /// Asks for the numbers of each definition's answer that are others than the Rust's.
    fn look_into(&self, differences: &mut [Difference]) -> Result<(), String> {
        let blocks = differences.iter().enumerate().flat_map(|(n, difference)| {
            let numbers = difference.oracle.len() + 1;
            (0..numbers).step_by(BLOCK).map(move |at| (n, at..numbers.min(at + BLOCK)))
        });
        let blocks = self.others(differences, blocks.collect())?;
        let single = blocks.into_iter().flat_map(|((n, block), _)| block.map(move |at| (n, at..at + 1)));
        for ((n, Range { start, .. }), found) in self.others(differences, single.collect())? {
            let what = match start {
                0 => "code".into(),
                1 => "place".into(),
                at => format!("byte {}", at - 2),
            };
            let rust = differences[n].oracle.get(start).map_or("none".into(), u32::to_string);
            differences[n].definition.push(format!("{what} is {found}, not {rust}"));
        }
        Ok(())
    }

    /// The parts in which a definition's answer is another than the Rust's, each with what it is there.
    fn others(&self, differences: &[Difference], parts: Vec<Part>) -> Result<Vec<(Part, String)>, String> {
        if parts.is_empty() {
            return Ok(vec![]);
        }
        let mut text = HEAD.to_string();
        for (n, difference) in differences.iter().enumerate() {
            text += &definition(n, &difference.image);
        }
        for (m, (n, part)) in parts.iter().enumerate() {
            let Difference { call, oracle, .. } = &differences[*n];
            let left = format!("take {} (drop {} ({}))", part.len(), part.start, call.on(*n));
            let right = &oracle[part.start..part.end.min(oracle.len())];
            text += &proof(&claim(*n, m), *n, &left, &list(right));
        }
        let refused = self.check(&[text])?;
        let found =
            |n: usize, m: usize| Some(found(refused.get(&claim(n, m))?).unwrap_or("another").to_string());
        Ok(parts
            .into_iter()
            .enumerate()
            .filter_map(|(m, part)| Some((part.clone(), found(part.0, m)?)))
            .collect())
    }
}

/// Of the difference with this number, these numbers of the answer.
type Part = (usize, Range<usize>);

fn copy(from: &Path, to: &Path) -> io::Result<()> {
    fs::create_dir_all(to)?;
    for entry in fs::read_dir(from)? {
        let entry = entry?;
        let to = to.join(entry.file_name());
        if entry.file_type()?.is_dir() {
            copy(&entry.path(), &to)?;
        } else {
            fs::copy(entry.path(), to)?;
        }
    }
    Ok(())
}

/// The lines of a crates.txt for these crates and all below them, each by its crate's name.
fn below<'a>(all: &'a str, names: &[&str]) -> BTreeMap<&'a str, &'a str> {
    let lines = all.lines().filter(|line| !line.starts_with('#'));
    let crates: BTreeMap<&str, (&str, &str)> = lines
        .filter_map(|line| {
            let (name, libraries) = line.split_once(':')?;
            Some((name.split_whitespace().next()?, (line, libraries)))
        })
        .collect();
    let mut found = BTreeMap::new();
    let mut wanted: Vec<&str> = names.to_vec();
    while let Some(name) = wanted.pop() {
        // one that is not listed is the toolchain's
        if let Some((&name, &(line, libraries))) = crates.get_key_value(name)
            && found.insert(name, line).is_none()
        {
            wanted.extend(libraries.split_whitespace());
        }
    }
    found
}

/// What of a crate's claims the output of `rt ci` refuses; none where the crate was not judged to its end.
fn verdict(said: &str, name: &str) -> Option<BTreeMap<String, String>> {
    let [proved, kept] = [" proved", " is kept: "].map(|what| format!("rt: {name}{what}"));
    if said.lines().any(|line| line == proved || line.starts_with(&kept)) {
        return Some(BTreeMap::new());
    }
    let [start, end] = [format!("== {name}"), format!("rt: {name} NOT PROVED")];
    let own: Vec<&str> =
        said.lines().skip_while(|&line| line != start).take_while(|&line| line != end).collect();
    let is_judged = |line: &&str| {
        *line == "logic=not-proved" || line.starts_with("rattle: no verdict, since antt ran out of")
    };
    let refused = refused(&own);
    (own.iter().any(is_judged) && !refused.is_empty()).then_some(refused)
}

/// The claims that these lines of the toolchain refuse: a line that names the claim, and the indented lines behind it.
fn refused(said: &[&str]) -> BTreeMap<String, String> {
    let mut refused = BTreeMap::new();
    let mut lines = said.iter().peekable();
    while let Some(line) = lines.next() {
        let Some((_, error)) = line.split_once(".antt:").filter(|(_, error)| error.contains(": error: "))
        else {
            continue;
        };
        let name = error.split('`').nth(1).unwrap_or(error).to_string();
        let mut message = line.to_string();
        while let Some(more) = lines.next_if(|line| line.starts_with("  ")) {
            message += more;
        }
        refused.insert(name, message);
    }
    refused
}

/// The number that a message says it found, where it says so.
fn found(message: &str) -> Option<&str> {
    let (_, computed) = message.split_once("computed as far as they go")?;
    let term = computed.split_once("` (found)")?.0.rsplit('`').next()?;
    let number =
        term.trim_end_matches(['∷', '[', ']', '(', ')', ' ']).rsplit(|c: char| !c.is_ascii_digit()).next()?;
    Some(if number.is_empty() { "none" } else { number })
}

/// How many images and answers of each family were evaluated.
pub struct Counts<'a>(pub &'a [Case], pub &'a Judged);

impl Display for Counts<'_> {
    fn fmt(&self, f: &mut fmt::Formatter<'_>) -> fmt::Result {
        let Counts(cases, Judged { differences, undecided, .. }) = self;
        let own = [SAMPLE, SMALL].map(String::from).into_iter();
        for family in own.chain(Family::ALL.map(|family| format!("{family:?}"))) {
            let images = images(cases, &family);
            let of_family = cases.iter().filter(|case| case.family == family);
            let answers: usize = of_family.map(|case| case.answers.len()).sum();
            let undecided = undecided.iter().filter(|&of| *of == family).count();
            let others = differences.iter().filter(|other| other.family == family).count();
            let alike = answers - undecided - others;
            writeln!(
                f,
                "{family}: {images} images, {alike} answers alike, {others} others, {undecided} undecided"
            )?;
        }
        Ok(())
    }
}

impl Display for Difference {
    fn fmt(&self, f: &mut fmt::Formatter<'_>) -> fmt::Result {
        let Difference { family, seed, call, image, oracle, definition } = self;
        let image: String = image.iter().map(|byte| format!("{byte:02x}")).collect();
        writeln!(f, "{family} {seed}, {call:?}: {image}")?;
        writeln!(f, "  the Rust: {oracle:?}")?;
        write!(
            f,
            "  the definition: {}",
            if definition.is_empty() { "another".into() } else { definition.join("; ") }
        )
    }
}
