//! The port's check against the harness's own; and that the comparison meets every rule and sees every difference.

use std::collections::BTreeSet;

use harness::{
    check::{Answer, FLAT, LAYERED, Rule, check, explain},
    compare::{Counts, compare, images},
    generate::breakable,
    image::{HEADER, LARGEST},
};

/// What the gate runs; `harness compare N` runs as many as asked.
const IMAGES: usize = 20_000;

#[test]
#[cfg_attr(not(feature = "port"), ignore = "the port's library is not at hand")]
fn the_port_answers_as_the_harness_does() {
    #[cfg(feature = "port")]
    match compare(images(IMAGES), port::check) {
        Ok(counts) => println!("{counts}"),
        Err(difference) => panic!("{difference}"),
    }
}

#[test]
fn the_images_are_as_many_as_asked_and_meet_every_rule() {
    let mut rules: BTreeSet<Rule> = breakable().collect();
    let mut kinds = BTreeSet::new();
    let mut lengths = BTreeSet::new();
    let mut count = 0;
    for image in images(IMAGES) {
        let (answer, rule) = explain(&image);
        rule.inspect(|rule| {
            rules.remove(rule);
        });
        kinds.insert(answer.kind);
        lengths.insert(image.len());
        count += 1;
    }
    assert_eq!(count, IMAGES);
    assert_eq!(rules, BTreeSet::new(), "never broken");
    assert_eq!(kinds, BTreeSet::from([0, FLAT, LAYERED]));
    for length in [0, HEADER - 1, HEADER, LARGEST - 1, LARGEST, LARGEST + 1] {
        assert!(lengths.contains(&length), "{length} bytes");
    }
}

#[test]
fn few_images_and_none() {
    for n in [0, 1, 7, 300] {
        assert_eq!(images(n).count(), n);
    }
}

#[test]
fn alike_is_counted_by_code() {
    let images = || [vec![], vec![0; 21], vec![0; 22]].into_iter();
    let counts = compare(images(), check).expect("it is the same check");
    assert_eq!(counts, Counts { codes: [0, 0, 1, 2, 0, 0, 0, 0, 0] });
    assert_eq!(
        counts.to_string(),
        "3 images answered alike; by code 0: 0, 2: 1, 3: 2, 4: 0, 5: 0, 6: 0, 7: 0, 8: 0"
    );
}

/// A check that is wrong in one number of its answer, on images of 22 bytes only.
fn wrong(image: &[u8], change: fn(&mut Answer)) -> Answer {
    let mut answer = check(image);
    if image.len() == 22 {
        change(&mut answer);
    }
    answer
}

#[test]
fn each_number_of_an_answer_counts() {
    let wrongs: [fn(&[u8]) -> Answer; 3] = [
        |image| wrong(image, |answer| answer.code = 4),
        |image| wrong(image, |answer| answer.place = 4),
        |image| wrong(image, |answer| answer.kind = 1),
    ];
    for asked in wrongs {
        let images = [vec![0; 21], vec![0x1f; 22], vec![0; 22]].into_iter();
        let difference = compare(images, asked).expect_err("an answer differs");
        assert_eq!(difference.image, [0x1f; 22], "the first that differs");
        assert_eq!(difference.own, check(&[0x1f; 22]));
        let text = difference.to_string();
        assert!(text.ends_with(&format!(": {}", "1f".repeat(22))), "{text}");
        assert!(text.contains("the harness says code 3, place 0, kind 0"), "{text}");
    }
}
