//! docs/PICTURE.md held against the Rust: the pictures in docs/pictures, and those of generated images read back.

#[macro_use]
#[path = "../../tests/common/mod.rs"]
mod common;

#[cfg(feature = "oracle")]
mod reading {
    use std::{
        fs,
        io::Write,
        path::Path,
        process::{Command, Stdio},
    };

    pub use harness::{
        bridge::{Normalised, analyse, normalise},
        check::{FLAT, LAYERED, check},
        generate::{self, Family},
        image::*,
        picture::{Role, agree, picture, roles},
    };

    /// The pictures in docs/pictures, each of local 0 of the sample of its name.
    pub const DRAWN: [&str; 2] = ["example", "loop"];

    /// A file of docs/.
    pub fn docs(name: &str) -> String {
        let file = Path::new(env!("CARGO_MANIFEST_DIR")).join("../../docs").join(name);
        fs::read_to_string(&file).unwrap_or_else(|why| panic!("{}: {why}", file.display()))
    }

    pub fn drawn(name: &str) -> String {
        docs(&format!("pictures/{name}.dot"))
    }

    /// A word of the picture as the page has it: N for a number.
    pub fn on_the_page(text: &str) -> String {
        let mut page = String::new();
        for c in text.chars() {
            match c.is_ascii_digit() {
                false => page.push(c),
                true if page.ends_with('N') => {}
                true => page.push('N'),
            }
        }
        page
    }

    /// What a command of the harness writes.
    pub fn command(words: &[&str], input: &[u8]) -> Vec<u8> {
        let mut command = Command::new(env!("CARGO_BIN_EXE_harness"));
        let command = command.args(words).stdin(Stdio::piped()).stdout(Stdio::piped());
        let mut child = command.spawn().expect("the harness runs");
        child.stdin.take().expect("a pipe").write_all(input).expect("it reads its input");
        let output = child.wait_with_output().expect("it ends");
        assert!(output.status.success(), "{words:?}");
        output.stdout
    }

    pub fn sample(name: &str) -> Image {
        flat(&command(&["sample", name], b"")).expect("a sample is accepted")
    }

    /// The image, normalised if it has layers; none if it is refused.
    pub fn flat(bytes: &[u8]) -> Option<Image> {
        match check(bytes).kind {
            FLAT => Some(Image::decode(bytes)),
            LAYERED => match normalise(&Image::decode(bytes)) {
                Normalised::Flat(image) => Some(image),
                Normalised::Excess => None,
            },
            _ => None,
        }
    }

    /// Some hundreds of flat images, small enough that all their locals are drawn.
    pub fn generated() -> impl Iterator<Item = Image> {
        let families = [Family::FlatSmall, Family::FlatAimed, Family::LayeredSmall, Family::LayeredAimed];
        let bytes = families.into_iter().flat_map(|f| (0..150).map(move |seed| generate::image(f, seed)));
        bytes.filter_map(|bytes| flat(&bytes))
    }

    /// The words of a line where its form has `*`; a word is of letters and digits.
    pub fn words<'a>(line: &'a str, form: &str) -> Vec<&'a str> {
        let (mut rest, mut words) = (line, vec![]);
        let mut fixed = form.split('*');
        rest = rest.strip_prefix(fixed.next().unwrap_or("")).unwrap_or_else(|| panic!("{line}: {form}"));
        for fixed in fixed {
            let end = rest.find(|c: char| !c.is_ascii_alphanumeric()).unwrap_or(rest.len());
            assert!(end > 0, "{line}: {form}");
            words.push(&rest[..end]);
            rest = rest[end..].strip_prefix(fixed).unwrap_or_else(|| panic!("{line}: {form}"));
        }
        assert_eq!(rest, "", "{line}: {form}");
        words
    }

    /// What `build` relates, in the words of docs/PICTURE.md: the roles of each relation's inputs and output.
    pub fn related(image: &Image, incoming: &[u32]) -> Vec<[String; 4]> {
        let reached = image.stages.iter().enumerate().filter(|(_, s)| incoming[s.interface as usize] != 0);
        reached.flat_map(|(n, stage)| of_stage(n, stage)).collect()
    }

    fn of_stage(n: usize, stage: &Stage) -> Vec<[String; 4]> {
        let mut relations = vec![];
        let mut relate = |words: [&str; 4]| relations.push(words.map(String::from));
        let own = |what: &str| format!("s{n}{what}");
        let [inside, outside] = ["inside", "outside"].map(|side| format!("i{}{side}", stage.interface));
        // What the stage sees of its surroundings, and what its surroundings see of it.
        let mut around = (outside.clone(), inside.clone());
        if !stage.declarations.is_empty() {
            let [connected, disconnected] = ["connected", "disconnected"].map(own);
            around = (own("inside"), own("outside"));
            relate([&outside, &connected, "pass", &around.0]);
            relate([&around.1, &connected, "pass", &inside]);
            relate([&disconnected, "pass", "pass", &around.0]);
            relate([&disconnected, "pass", "pass", &inside]);
        }
        let mut transfers = vec![around];
        let steps = stage.steps.iter().filter(|step| step.tag == tag::TRANSFER);
        transfers.extend(steps.map(|step| (format!("i{}inside", step.b), format!("i{}outside", step.b))));
        let last = transfers.len() - 1;
        let pieces: Vec<&[Step]> = stage.steps.split(|step| step.tag == tag::TRANSFER).collect();
        let piece = |i: usize| match pieces[i].iter().any(|step| step.tag < tag::TRANSFER) {
            true => own(&format!("piece{i}")),
            false => "pass".to_string(),
        };
        let forward = |i: usize| if i == 0 { "pass".to_string() } else { own(&format!("forward{i}")) };
        let backward = |i: usize| if i == last { piece(i) } else { own(&format!("backward{i}")) };
        for (i, transfer) in transfers[..last].iter().enumerate() {
            relate([&forward(i), &transfer.0, &piece(i), &forward(i + 1)]);
        }
        for i in (0..last).rev() {
            relate([&piece(i), &transfers[i + 1].0, &backward(i + 1), &backward(i)]);
        }
        for (i, transfer) in transfers.iter().enumerate() {
            relate([&backward(i), "pass", &forward(i), &transfer.1]);
        }
        relations
    }
}
#[cfg(feature = "oracle")]
use reading::*;

live!(the_pictures_in_docs_are_the_programs, {
    for name in DRAWN {
        assert_eq!(picture(&sample(name), 0).as_deref(), Some(drawn(name).as_str()), "{name}");
        let image = command(&["sample", name], b"");
        assert_eq!(command(&["picture", "0"], &image), drawn(name).as_bytes(), "{name}");
    }
});

live!(the_samples_are_those_of_the_documents, {
    let analysis = analyse(&sample("example"), 0);
    assert_eq!((analysis.variables, analysis.relations.len()), (8, 5));
    let image = sample("loop");
    assert!(image.layers.is_empty());
    assert_eq!(
        analyse(&image, 0).incoming,
        [1, 2, 0],
        "the loop is entered twice, what follows the jump never"
    );
});

live!(every_line_is_as_the_page_fixes_it, {
    const NAMES: [&str; 11] = ["P", "B", "PB", "RP", "RB", "RPB", "BW", "PBW", "RBW", "RPBW", "X"];
    let (mut drawn, mut inverse) = (0, 0);
    for image in generated() {
        let analysis = analyse(&image, 0);
        for processed in &analysis.processed {
            let text = picture(&image, processed.local).expect("a processed local has a picture");
            let (variables, relations) = (analysis.variables, analysis.relations.len());
            let lines: Vec<&str> = text.strip_suffix("\n}\n").expect("the last line").split('\n').collect();
            assert_eq!(lines.len(), 4 + variables + 3 * relations);
            let local = format!("local{}", processed.local);
            assert_eq!(words(lines[0], "digraph * {"), [&local]);
            let label = local + if processed.inverse { "inverse" } else { "" };
            let graph = "graph [fontname=* nodesep=*.* ranksep=*.* outputorder=* label=*];";
            assert_eq!(words(lines[1], graph).last(), Some(&label.as_str()));
            for (n, line) in lines[4..4 + variables].iter().enumerate() {
                let words = words(line, "* [label=* xlabel=* shape=*];");
                assert_eq!(words[..2], [&format!("v{n}"), NAMES[processed.effects[n] as usize]]);
            }
            for (n, line) in lines[4 + variables..].iter().enumerate() {
                let relation = analysis.relations[n / 3];
                let (from, out) = (relation[n % 3], relation[3]);
                let dotted = if from == 0 { " style=dotted" } else { "" };
                let words = words(line, &format!("* -> * [label=*{dotted}];"));
                let input = ["a", "b", "c"][n % 3];
                assert_eq!(words, [format!("v{from}"), format!("v{out}"), format!("r{}{input}", n / 3)]);
            }
            drawn += 1;
            inverse += u32::from(processed.inverse);
        }
    }
    assert!(drawn > 500 && inverse > 100, "{drawn} pictures, {inverse} of inverse locals");
});

live!(the_page_says_the_same, {
    let page = docs("PICTURE.md");
    for image in generated().take(300).chain(DRAWN.map(sample)) {
        let analysis = analyse(&image, 0);
        let roles = roles(&image, &analysis.incoming);
        for processed in analysis.processed.iter().filter(|processed| !processed.inverse) {
            let text = picture(&image, processed.local).expect("a processed local has a picture");
            let local = format!("local{}", processed.local);
            for line in text.lines().take(4) {
                let line = line.replace(&local, "localN");
                assert!(page.contains(&format!("    {line}\n")), "{line}");
            }
            for (line, role) in text.lines().skip(4).zip(&roles) {
                let [_, _, xlabel, shape] = words(line, "* [label=* xlabel=* shape=*];")[..] else {
                    unreachable!("a form of four words")
                };
                assert_eq!(xlabel, role.to_string());
                assert!(page.contains(&format!("| `{}` | {shape} |\n", on_the_page(xlabel))), "{line}");
            }
        }
    }
});

live!(roles_agree_with_the_rust, {
    for image in generated() {
        let analysis = analyse(&image, 0);
        let roles = roles(&image, &analysis.incoming);
        assert!(agree(&roles, &analysis));
        let said = analysis.relations.iter().map(|relation| relation.map(|v| roles[v].to_string()));
        assert_eq!(said.collect::<Vec<_>>(), related(&image, &analysis.incoming));
    }
});

live!(a_role_out_of_place_disagrees, {
    let image = sample("loop");
    let analysis = analyse(&image, 0);
    let right = roles(&image, &analysis.incoming);
    for n in 0..right.len() - 1 {
        let mut wrong = right.clone();
        wrong.swap(n, n + 1);
        let recorded = !matches!(
            (right[n], right[n + 1]),
            (Role::InnerInterior(_), Role::InnerExterior(_)) | (Role::Forward(..), Role::Backward(..))
        );
        assert_eq!(agree(&wrong, &analysis), !recorded, "{n}");
    }
    assert!(!agree(&right[1..], &analysis));
});

live!(a_local_that_is_not_processed_has_no_picture, {
    for image in generated() {
        let analysis = analyse(&image, 0);
        for local in 0..image.locals.len() as u16 + 2 {
            let processed = analysis.processed.iter().any(|p| p.local == local);
            assert_eq!(picture(&image, local).is_some(), processed);
        }
    }
    let mut image = sample("example");
    assert_eq!(picture(&image, NONE), None);
    image.locals[0].flags |= SELF_INVERSE;
    assert_eq!(picture(&image, 0), None);
});

live!(an_inverse_local_is_said_to_be_one, {
    let mut image = sample("example");
    image.locals[0].flags |= INV;
    let text = picture(&image, 0).expect("a processed local");
    assert!(text.lines().nth(1).is_some_and(|line| line.ends_with(" label=local0inverse];")));
});

#[test]
fn a_bad_command_line_ends_in_status_2() {
    let mut command = std::process::Command::new(env!("CARGO_BIN_EXE_harness"));
    let output = command.arg("nothing").output().expect("the harness runs");
    assert_eq!((output.status.code(), output.stdout), (Some(2), vec![]));
    assert!(output.stderr.starts_with(b"harness: no command nothing\nusage:\n"));
}
