//! A valid image while it is built, and what is picked from it.

use super::{mood::Mood, rng::Rng};
use crate::image::{INVERSE, Image};

/// What is left of each list section.
pub(super) struct Budget {
    pub steps: usize,
    pub ports: usize,
    pub refs: usize,
}

pub(super) struct Builder<'a> {
    pub rng: &'a mut Rng,
    pub mood: Mood,
    pub left: Budget,
    pub image: Image,
}

impl Builder<'_> {
    /// A type handle; some types exist.
    pub(super) fn ty(&mut self) -> u16 {
        let number = self.rng.below(self.image.types.len()) as u16;
        number | if self.rng.chance(35) { INVERSE } else { 0 }
    }

    /// Some locals, with repeats; none where there are none or refs run short.
    pub(super) fn some_locals(&mut self, least: usize, most: usize) -> Vec<u16> {
        let count = self.rng.between(least, most).min(self.left.refs / 2);
        let count = if self.mood.locals == 0 { 0 } else { count };
        (0..count).map(|_| self.local()).collect()
    }

    /// As the mood is, one of the first few, so that steps meet on the same local.
    pub(super) fn local(&mut self) -> u16 {
        let few = if self.rng.chance(self.mood.focus) { self.mood.locals.min(3) } else { self.mood.locals };
        self.rng.below(few) as u16
    }
}
