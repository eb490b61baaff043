//! The definitions run against the Rust by the toolchain's own evaluation; and an altered answer does not go unseen.

#[macro_use]
mod common;

live!(the_definitions_answer_as_the_rust_does, {
    use std::collections::BTreeSet;

    use harness::{
        evaluate::{Call, Counts, cases, evaluate, images},
        generate::Family,
        report::Report,
    };
    let cases = cases(12);
    for family in Family::ALL.map(|family| format!("{family:?}")) {
        assert!(images(&cases, &family) >= 12, "{family} has too few images");
    }
    let judged = evaluate(&cases).expect("a verdict");
    println!("{}", Counts(&cases, &judged));
    let lines: Vec<String> = judged.differences.iter().map(ToString::to_string).collect();
    assert!(lines.is_empty(), "{}", lines.join("\n"));
    assert_eq!(judged.undecided, [""; 0], "over the toolchain's limit of steps");
    let (mut codes, mut diagnostics) = (BTreeSet::new(), BTreeSet::new());
    for (call, answer) in cases.iter().flat_map(|case| &case.answers) {
        codes.insert(answer[0]);
        if let (Call::Analyse(_), [0, 0, bytes @ ..]) = (call, &answer[..]) {
            let bytes: Vec<u8> = bytes.iter().map(|&byte| byte as u8).collect();
            diagnostics.extend(Report::decode(&bytes).expect("a report").diagnostics.iter().map(|d| d.kind));
        }
    }
    assert_eq!(codes, BTreeSet::from([0, 2, 3, 4, 5, 6, 7, 8, 9]));
    assert_eq!(diagnostics, BTreeSet::from([1, 2, 3, 4, 5]));
});

live!(an_altered_answer_is_refused, {
    use harness::evaluate::{Judged, cases, evaluate};
    let mut cases = cases(0);
    // of the first image the takes, of the last one the code
    cases[0].answers[1].1[12] ^= 1;
    cases.last_mut().expect("the samples").answers[0].1[0] ^= 1;
    let Judged { differences, kept, .. } = evaluate(&cases).expect("a verdict");
    std::fs::remove_dir_all(kept.expect("it stays")).expect("it can be removed");
    let seeds: Vec<&str> = differences.iter().map(|difference| difference.seed.as_str()).collect();
    assert_eq!(seeds, ["example", "over"]);
    assert_eq!(differences[0].definition, ["byte 10 is 7, not 6"]);
});
