//! Slips that tests let through: a small image for each, on which the Rust with the slip made reports something else.

use std::ops::Range;

pub use slipped::{program as slipped, table::SLIPS};

use crate::{
    bridge::program,
    check::check,
    generate::{self, Family},
    shrink::{shrunk, weight},
};

/// Where differences are looked for: a slip of normalising needs layers, one of analysing is plainer to see without.
const LAYERED: [Family; 2] = [Family::LayeredSmall, Family::LayeredAimed];
const FLAT: [Family; 2] = [Family::FlatSmall, Family::FlatAimed];
const OF_NORMALISING: [&str; 2] = ["arrival", "ports-after"];

/// Two slips of one clause, each of which many images show with the other: an image is to show one alone.
const APART: [&str; 2] = ["input-without-pass", "exterior-pass"];

/// The slip that only takes and evaluations tell; for the others these do not count, since nobody sees them.
const TOLD_BY_COUNTS: &str = "first-in-first-out";
/// Where a report has takes and evaluations.
const COUNTS: Range<usize> = 10..18;

/// Whether the image is accepted, and the Rust with the slip reports something else on it.
pub fn shows(slip: usize, image: &[u8]) -> bool {
    let seen = |answer: Option<(Vec<u8>, Vec<u8>)>| {
        answer.map(|(_, mut report)| {
            if SLIPS[slip].0 != TOLD_BY_COUNTS {
                report[COUNTS].fill(0);
            }
            report
        })
    };
    check(image).code == 0 && seen(program(image)) != seen(slipped(slip, image))
}

/// Whether the image shows the slip, and not the one that is to be told apart from it.
pub fn shows_alone(slip: usize, image: &[u8]) -> bool {
    let apart = |&other: &usize| other != slip && [other, slip].iter().all(|&n| APART.contains(&SLIPS[n].0));
    shows(slip, image) && !(0..SLIPS.len()).filter(apart).any(|other| shows(other, image))
}

/// The smallest image that comes of shrinking those of the families, for so many seeds, that show the slip.
pub fn smallest(slip: usize, seeds: u64) -> Option<Vec<u8>> {
    let families = if OF_NORMALISING.contains(&SLIPS[slip].0) { LAYERED } else { FLAT };
    let images = (0..seeds).flat_map(|seed| families.map(|family| generate::image(family, seed)));
    let shown = images.filter(|image| shows_alone(slip, image));
    shown.map(|image| shrunk(image, |less| shows_alone(slip, less))).min_by_key(|image| weight(image))
}
