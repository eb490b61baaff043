//! What a fault is planted with or in: a number that names no record, a step of some sort.

use super::rng::Rng;
use crate::image::{Image, NONE, Step};

/// A number that names none of `count` records; `NONE` only where it is no answer either.
pub(super) fn no_record(rng: &mut Rng, count: usize, none_is_bad: bool) -> u16 {
    match rng.below(4) {
        0 | 1 => count as u16,
        2 if none_is_bad => NONE,
        2 => NONE - 1,
        _ => rng.between(count, NONE as usize - 1) as u16,
    }
}

/// A step for which `wanted` holds: its stage and its number there.
pub(super) fn some_step(
    image: &Image,
    rng: &mut Rng,
    wanted: impl Fn(&Step) -> bool,
) -> Option<(usize, usize)> {
    let places: Vec<(usize, usize)> = (0..image.stages.len())
        .flat_map(|s| (0..image.stages[s].steps.len()).map(move |n| (s, n)))
        .filter(|&(s, n)| wanted(&image.stages[s].steps[n]))
        .collect();
    (!places.is_empty()).then(|| rng.pick(&places))
}
