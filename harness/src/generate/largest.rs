//! The largest image.

use super::{bytes::section::*, grow::grow, mood::Size, rng::Rng, valid::valid};
use crate::image::{Image, MAXIMA};

/// A valid image with every count at its maximum, but for the layers where it is to be flat: 63,893 bytes with them.
pub fn largest(rng: &mut Rng, layered: bool) -> Image {
    let mut image = valid(rng, Size::Small, layered);
    let sections = [LAYERS, TYPES, LOCALS, INTERFACES, STAGES, STEPS, PORTS, REFS];
    for section in sections.into_iter().filter(|&s| layered || s != LAYERS) {
        grow(rng, &mut image, section, MAXIMA[section]);
    }
    image
}
