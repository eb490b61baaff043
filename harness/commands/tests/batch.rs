//! The program `batch`: many images in one run, answered as the harness's own check answers each.
#![cfg(feature = "port")]

use std::{
    io::Write,
    path::Path,
    process::{Command, Output, Stdio},
};

use harness::{
    check::{Answer, check},
    generate::{self, Family},
    image::LARGEST,
    samples::SAMPLES,
};

fn frame(call: u8, image: &[u8]) -> Vec<u8> {
    let mut out = vec![call];
    out.extend(0u32.to_le_bytes());
    out.extend((image.len() as u32).to_le_bytes());
    out.extend(image);
    out
}

fn answer(Answer { code, place, kind }: Answer) -> Vec<u8> {
    [code, place, kind].iter().flat_map(|n| n.to_le_bytes()).collect()
}

/// What the program writes on this input.
fn run(input: Vec<u8>) -> Output {
    let script = Path::new(env!("CARGO_MANIFEST_DIR")).join("../run.sh");
    let mut child = Command::new(script)
        .arg("batch")
        .stdin(Stdio::piped())
        .stdout(Stdio::piped())
        .stderr(Stdio::piped())
        .spawn()
        .expect("run.sh runs");
    let mut stdin = child.stdin.take().expect("a pipe");
    // the program may end before it has read everything
    let writer = std::thread::spawn(move || drop(stdin.write_all(&input)));
    let output = child.wait_with_output().expect("batch ends");
    writer.join().expect("nothing panics there");
    output
}

fn example() -> Vec<u8> {
    let (_, image) = SAMPLES[0];
    image().encode()
}

#[test]
fn every_image_is_answered_as_by_check() {
    let images: Vec<Vec<u8>> = Family::ALL
        .into_iter()
        .flat_map(|family| (0..100).map(move |seed| generate::image(family, seed)))
        .collect();
    let output = run(images.iter().flat_map(|image| frame(0, image)).collect());
    let expected: Vec<u8> = images.iter().flat_map(|image| answer(check(image))).collect();
    assert_eq!(output.stdout, expected);
    assert_eq!(output.stderr, b"");
}

#[test]
fn an_image_longer_than_the_largest_is_answered_and_read_past() {
    let good = example();
    let mut images = Vec::new();
    for length in [LARGEST, LARGEST + 1, 2 * LARGEST, 3 * LARGEST + 21, 1_000_000] {
        let mut long = good.clone();
        long.resize(length, 7);
        let mut unmarked = long.clone();
        unmarked[0] = 0;
        let mut uncounted = long.clone();
        uncounted[7] = 0;
        images.extend([long, unmarked, uncounted, good.clone()]);
    }
    let output = run(images.iter().flat_map(|image| frame(0, image)).collect());
    let expected: Vec<u8> = images.iter().flat_map(|image| answer(check(image))).collect();
    assert_eq!(output.stdout, expected);
    assert_eq!(output.stderr, b"");
}

/// The answer to one good frame is written, and then one line says why the run ends.
fn ends_with(rest: &[u8], line: &str) {
    let good = example();
    let output = run([frame(0, &good), rest.to_vec()].concat());
    assert_eq!(output.stdout, answer(check(&good)));
    assert_eq!(String::from_utf8_lossy(&output.stderr), line);
}

#[test]
fn a_frame_cut_short_ends_the_run() {
    let good = frame(0, &example());
    let mut long = frame(0, &vec![7; LARGEST + 5]);
    long.pop();
    for cut in [&good[..1], &good[..8], &good[..9], &good[..good.len() - 1], &long] {
        ends_with(cut, "batch: a frame is cut short\n");
    }
}

#[test]
fn an_unknown_call_ends_the_run() {
    for call in [1, 2, 3, 255] {
        ends_with(&frame(call, &example()), "batch: an unknown call\n");
    }
}

#[test]
fn no_input_has_no_answer() {
    let output = run(Vec::new());
    assert!(output.stdout.is_empty() && output.stderr.is_empty());
}
