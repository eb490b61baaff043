//! The commands by their command lines.

use harness::{
    check::{FLAT, LAYERED, check},
    generate::{self, Family},
    image::Image,
    samples::SAMPLES,
};

use super::{
    Outcome,
    commands::{
        COMMANDS,
        words::{family_name, sample_name},
    },
    outcome, usage,
};

fn asked(line: &str, input: &[u8]) -> Outcome {
    let words: Vec<String> = line.split_whitespace().map(String::from).collect();
    outcome(&words, &mut &*input)
}

/// What a command line writes that is in order.
fn bytes(line: &str, input: &[u8]) -> Vec<u8> {
    let Outcome { status, out, err } = asked(line, input);
    assert_eq!((status, err.as_str()), (0, ""), "{line}");
    out
}

fn text(line: &str, input: &[u8]) -> String {
    String::from_utf8(bytes(line, input)).unwrap()
}

/// A misuse gets the usage and status 2.
fn misused(line: &str, input: &[u8]) {
    let Outcome { status, out, err } = asked(line, input);
    assert_eq!((status, out), (2, vec![]), "{line}");
    assert!(err.ends_with(&usage()) && err.lines().count() == 1 + usage().lines().count(), "{line}");
}

#[test]
fn a_misuse_gets_the_usage_and_status_2() {
    let image = bytes("sample example", b"");
    let lines = "|nothing|show 1|sample|sample nothing|generate FlatSmall|generate Nothing 1\
        |generate FlatSmall -1|generate FlatSmall 18446744073709551616|report 1|picture|help me\
        |families|families 1 2|slips 1 2|evaluate 1 2|tables|compare 1 2|bench 1";
    for line in lines.split('|') {
        misused(line, &image);
    }
}

#[test]
fn the_usage_names_all_there_is() {
    let usage = text("help", b"");
    let names = COMMANDS.iter().map(|c| c.name.to_string()).chain(SAMPLES.iter().map(sample_name));
    for name in names.chain(Family::ALL.iter().map(family_name)) {
        assert!(usage.split_whitespace().any(|word| word == name), "{name}");
    }
}

#[test]
fn the_samples_are_accepted() {
    for name in SAMPLES.iter().map(sample_name) {
        let sample = bytes(&format!("sample {name}"), b"");
        let kind = if Image::decode(&sample).layers.is_empty() { FLAT } else { LAYERED };
        assert_eq!(check(&sample).kind, kind, "{name}");
    }
}

#[test]
fn a_family_and_a_seed_give_the_generators_image() {
    for family in Family::ALL {
        let line = format!("generate {family:?} 7");
        assert_eq!(bytes(&line, b""), generate::image(family, 7), "{line}");
    }
}

#[test]
fn a_refusal_is_a_line() {
    assert_eq!(text("show", &[0; 20]), "refused 2 0\n");
    assert_eq!(text("show", b"VIR, but of another version"), "refused 3 0\n");
}

#[test]
fn the_listing_has_a_line_for_each_record() {
    let listed = text("show", &bytes("sample loop", b""));
    let lines = [
        "layer 1: parent 0, stages [1 2]",
        "interface 1: Branch, stages [1 2], layer 1",
        "stage 0: interface 0, layer 0, Bare 0 [], declares [0], transfer none [], wires 0, span 0",
        "  step 0: BarrierWrite local 0, span 1 [?0 Nil 0]",
        "  step 0: Diverge layer 1, interface none []",
        "local 0: ?0, span 0, flags [fork drop]",
        "type 0: upright [], inverted []",
    ];
    for line in lines {
        assert!(listed.lines().any(|listed| listed == line), "{line}");
    }
    for family in [Family::FlatSmall, Family::LayeredSmall, Family::FlatLarge, Family::LayeredLarge] {
        let image = generate::image(family, 3);
        let records: usize = Image::decode(&image).counts()[..6].iter().sum();
        assert_eq!(text("show", &image).lines().count(), records, "{family:?}");
    }
}

#[cfg(not(feature = "oracle"))]
#[test]
fn without_the_sources_a_line_says_so() {
    for line in ["report", "flat", "picture 0", "families 1", "slips", "evaluate", "tables RustWires"] {
        let Outcome { status, out, err } = asked(line, &bytes("sample example", b""));
        assert_eq!((status, out, err.lines().count()), (2, vec![], 1), "{line}");
    }
}

#[cfg(not(feature = "port"))]
#[test]
fn without_the_library_a_line_says_so() {
    for line in ["compare", "compare 5", "bench"] {
        let Outcome { status, out, err } = asked(line, b"");
        assert_eq!((status, out, err.lines().count()), (2, vec![], 1), "{line}");
    }
}

#[cfg(feature = "port")]
#[test]
fn compare_takes_a_number_or_none() {
    assert!(text("compare 30", b"").starts_with("30 images answered alike; by code 0: "));
    assert!(text("compare", b"").starts_with("20000 images"));
    for line in ["compare -1", "compare many"] {
        misused(line, b"");
    }
}

#[cfg(feature = "oracle")]
#[test]
fn families_has_a_line_for_each_and_one_for_all() {
    let counted = text("families 2", b"");
    let names = Family::ALL.iter().map(family_name).chain(["in all".into()]);
    assert!(counted.lines().zip(names).all(|(line, name)| line.starts_with(&format!("{name}: codes"))));
    assert_eq!(counted.lines().count(), Family::ALL.len() + 1);
    for line in ["families many", "slips many", "evaluate many"] {
        misused(line, b"");
    }
}

#[cfg(feature = "oracle")]
#[test]
fn slips_has_an_image_and_two_reports_or_says_that_none_was_found() {
    let found = text("slips 20", b"");
    let lines: Vec<&str> = found.lines().collect();
    for (name, _) in harness::slips::SLIPS {
        let at = lines.iter().position(|line| line.starts_with(&format!("{name}: "))).expect(name);
        let has = |n: usize, what: &str| lines.get(at + n).is_some_and(|line| line.contains(what));
        let image = has(1, " bytes: 564952") && has(2, "  right: ") && has(3, "  slipped: ");
        assert!(image || has(1, "no image found"), "{name}");
    }
    assert!(text("slips 0", b"").contains("no image found"));
}

#[cfg(feature = "oracle")]
#[test]
fn a_local_without_a_picture_gets_a_line_and_status_1() {
    let Outcome { status, out, err } = asked("picture 1", &bytes("sample example", b""));
    assert_eq!((status, out, err.as_str()), (1, vec![], "local 1 is not processed\n"));
    misused("picture 65536", b"");
}

/// Document 01's answers to its examples.
#[cfg(feature = "oracle")]
#[test]
fn the_program_of_document_01() {
    let reported = |name: &str| bytes("report", &bytes(&format!("sample {name}"), b""));
    let verdict_and_total = |name: &str| (reported(name)[9], reported(name)[18]);
    assert_eq!(reported("example")[29..], [3, 9, 0, 0, 0, 0, 0, 0, 0]);
    assert_eq!(reported("example").len(), 38);
    assert_eq!(verdict_and_total("clean"), (0, 0));
    assert_eq!(verdict_and_total("endless"), (1, 1));
    assert_eq!(verdict_and_total("loop"), (0, 0));
    assert_eq!(reported("split")[5..7], [2, 0], "two interfaces after normalising");
    assert_eq!(text("report", &[0; 20]), "refused 2 0\n");
    let over = (0..).map(|seed| generate::image(Family::Excess, seed));
    let refused = over.take(20).map(|image| bytes("report", &image)).filter(|out| out == b"refused 9 0\n");
    assert!(refused.count() > 0);
}
