//! The images of docs/SLIPS.md: each shows its slip, none smaller is found, and the page and its pictures are the Rust's.

#[macro_use]
mod common;

#[cfg(feature = "oracle")]
mod page {
    use std::{fs, path::Path};

    pub use harness::{
        bridge::{Normalised, flat, program},
        generate::{self, Family},
        image::Image,
        picture::picture,
        samples::SAMPLES,
        shrink::weight,
        slips::{SLIPS, shows_alone, slipped, smallest},
    };

    /// The slips with their numbers, names and images.
    pub fn samples() -> impl Iterator<Item = (usize, &'static str, Vec<u8>)> {
        SLIPS.iter().enumerate().map(|(slip, (name, _))| {
            let of_slip = |sample: &str| sample.strip_prefix("slip-") == Some(name);
            let sample = SAMPLES.iter().find(|(sample, _)| of_slip(sample));
            (slip, *name, sample.expect("a sample for each slip").1().encode())
        })
    }

    /// A file of docs/.
    pub fn docs(name: &str) -> String {
        let file = Path::new(env!("CARGO_MANIFEST_DIR")).join("../docs").join(name);
        fs::read_to_string(&file).unwrap_or_else(|why| panic!("{}: {why}", file.display()))
    }

    /// Lines as the page has them, set in by four spaces.
    pub fn set_in(text: &str) -> String {
        text.lines().map(|line| format!("    {line}\n")).collect()
    }

    /// Lines of 40 bytes.
    pub fn hex(bytes: &[u8]) -> String {
        let line = |bytes: &[u8]| bytes.iter().map(|byte| format!("{byte:02x}")).collect::<String>() + "\n";
        bytes.chunks(40).map(line).collect()
    }
}
#[cfg(feature = "oracle")]
use page::*;

live!(each_image_shows_its_slip, {
    for (slip, name, image) in samples() {
        assert!(shows_alone(slip, &image), "{name}");
    }
});

live!(a_few_seeds_give_none_smaller, {
    for (slip, name, image) in samples() {
        if let Some(found) = smallest(slip, 8) {
            assert!(weight(&found) >= weight(&image), "{name}: {}", hex(&found));
        }
    }
});

live!(without_a_slip_the_edits_change_nothing, {
    let families = [Family::FlatSmall, Family::FlatAimed, Family::LayeredSmall, Family::LayeredAimed];
    for family in families {
        for seed in 0..200 {
            let image = generate::image(family, seed);
            assert_eq!(slipped(SLIPS.len(), &image), program(&image), "{family:?} {seed}");
        }
    }
});

live!(the_page_has_each_image_and_both_reports, {
    let page = docs("SLIPS.md");
    for (slip, name, image) in samples() {
        let part = page.split("\n## ").find(|part| part.starts_with(&format!("{name}\n")));
        let part = part.unwrap_or_else(|| panic!("{name} is not on the page"));
        let reports = [program(&image), slipped(slip, &image)].map(|answer| answer.expect("no code 9").1);
        for bytes in [&image, &reports[0], &reports[1]] {
            assert!(part.contains(&set_in(&hex(bytes))), "{name}:\n{}", set_in(&hex(bytes)));
        }
    }
});

live!(the_pictures_are_the_programs, {
    for (_, name, image) in samples() {
        let Normalised::Flat(flat) = flat(Image::decode(&image)) else { panic!("{name} is over a maximum") };
        let drawn = docs(&format!("pictures/slip-{name}.dot"));
        assert!((0..2).any(|local| picture(&flat, local).as_deref() == Some(&drawn)), "{name}");
    }
});
