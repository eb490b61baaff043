//! What a valid image leans to: how large it is, and how often its parts are this or that.

use super::rng::Rng;

#[derive(Clone, Copy, Debug, PartialEq, Eq)]
pub enum Size {
    Small,
    Large,
}

/// What one image leans to; drawn once an image, so that images differ more than their parts do.
pub(super) struct Mood {
    pub layers: usize,
    pub interfaces: usize,
    pub stages: usize,
    pub locals: usize,
    pub types: usize,
    /// At most so many steps a stage.
    pub steps: usize,
    /// Percent of layers without parent.
    pub roots: usize,
    /// Percent of Transfer steps that go back or to the own interface.
    pub back: usize,
    /// Percent of interfaces that are Inspect.
    pub inspect: usize,
    /// Percent of stages that declare.
    pub declare: usize,
    /// Percent of mentions of a local that are of the first three.
    pub focus: usize,
    /// Percent of wires left open at first use.
    pub open: usize,
    /// Percent of interfaces whose layer is not their stages'.
    pub tangle: usize,
    /// Percent of interfaces that an earlier one is made to reach.
    pub connect: usize,
    /// Percent of locals that are self-inverse.
    pub self_inverse: usize,
}

impl Mood {
    pub(super) fn new(rng: &mut Rng, size: Size, layered: bool) -> Mood {
        let types = if rng.chance(4) { 0 } else { rng.between(1, 4) };
        let mut mood = Mood {
            layers: if layered { rng.between(1, 5) } else { 0 },
            interfaces: rng.between(1, 6),
            stages: 12,
            locals: rng.pick(&[0, 1, 1, 2, 3, 4]),
            types,
            steps: rng.between(0, 7),
            roots: rng.pick(&[5, 20, 60]),
            back: rng.pick(&[0, 5, 20, 60]),
            inspect: rng.pick(&[0, 10, 25, 50]),
            declare: rng.pick(&[30, 60, 90]),
            focus: 75,
            open: rng.pick(&[20, 50, 80]),
            tangle: rng.pick(&[0, 0, 25]),
            connect: rng.pick(&[0, 50, 80, 100]),
            self_inverse: rng.pick(&[0, 10, 30]),
        };
        if size == Size::Large {
            mood.layers = if layered { rng.pick(&[1, 4, 12, 40, 64]) } else { 0 };
            mood.interfaces = rng.pick(&[20, 60, 120, 200, 256]).max(mood.layers);
            mood.stages = rng.pick(&[30, 100, 200, 256]).max(mood.layers);
            mood.locals = rng.pick(&[1, 2, 15, 100, 256]);
            mood.types = rng.pick(&[1, 3, 50, 1024]);
            mood.steps = rng.pick(&[2, 5, 12, 40]);
            mood.focus = rng.pick(&[10, 75]);
        }
        if mood.types == 0 {
            mood.locals = 0;
        }
        mood
    }
}
