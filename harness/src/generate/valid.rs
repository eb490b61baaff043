//! Valid images: small, large and aimed, and those that a fault or a boundary starts from.

use super::{
    build::build,
    bytes::section::*,
    grow::add_interface,
    mood::{Mood, Size},
    rng::Rng,
};
use crate::image::{DROP, FORK, INV, Image, MAXIMA, kind};

/// An image that check accepts as flat or layered.
pub fn valid(rng: &mut Rng, size: Size, layered: bool) -> Image {
    let mood = Mood::new(rng, size, layered);
    build(rng, mood)
}

/// A flat image in which strict and loose reads, and the two halves of an inverse local, tend to differ.
pub(super) fn aimed_flat(rng: &mut Rng) -> Image {
    let mood = Mood {
        locals: rng.between(1, 2),
        types: 1,
        steps: rng.between(2, 5),
        back: rng.pick(&[0, 5, 20]),
        inspect: rng.pick(&[0, 25, 50]),
        connect: rng.pick(&[70, 100]),
        self_inverse: 0,
        ..Mood::new(rng, Size::Small, false)
    };
    let mut image = build(rng, mood);
    if let Some(stage) = image.stages.iter_mut().find(|stage| stage.interface == 0) {
        stage.declarations.insert(0, 0);
    }
    if rng.chance(30) && image.interfaces.iter().all(|i| i.kind != kind::INSPECT) {
        // Nothing can name it, since it came last.
        add_interface(rng, &mut image);
    }
    let flags = [0, DROP, FORK, FORK | DROP, INV, INV | DROP, INV | FORK, INV | FORK | DROP];
    image.locals[0].flags = rng.pick(&flags);
    image
}

/// A layered image of loops within loops, jumps out of several and values half built on the way.
pub(super) fn aimed_layered(rng: &mut Rng) -> Image {
    let layers = rng.between(3, 6);
    let mood = Mood {
        layers,
        interfaces: layers + rng.below(3),
        types: rng.between(1, 3),
        steps: rng.between(2, 6),
        roots: rng.pick(&[0, 5]),
        open: rng.pick(&[60, 90]),
        tangle: rng.pick(&[0, 0, 0, 10]),
        ..Mood::new(rng, Size::Small, true)
    };
    build(rng, mood)
}

/// A valid image of either kind, mostly small.
pub(super) fn any_valid(rng: &mut Rng) -> Image {
    let size = if rng.chance(95) { Size::Small } else { Size::Large };
    let layered = rng.chance(50);
    valid(rng, size, layered)
}

/// The first valid image that has what a fault needs, and room for what it adds.
pub(super) fn find<T>(rng: &mut Rng, mut wanted: impl FnMut(&Image, &mut Rng) -> Option<T>) -> (Image, T) {
    loop {
        let image = any_valid(rng);
        let counts = image.counts();
        let roomy = [STEPS, PORTS, REFS].iter().all(|&s| counts[s] + 6 <= MAXIMA[s]);
        if let Some(found) = roomy.then(|| wanted(&image, rng)).flatten() {
            return (image, found);
        }
    }
}

/// A valid layered image that has what a fault needs.
pub(super) fn find_layered<T>(
    rng: &mut Rng,
    mut wanted: impl FnMut(&Image, &mut Rng) -> Option<T>,
) -> (Image, T) {
    find(rng, |image, rng| if image.layers.is_empty() { None } else { wanted(image, rng) })
}
