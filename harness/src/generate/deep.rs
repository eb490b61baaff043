//! The image whose jumps go out of the most layers.

use super::{bytes::section::*, parts::interface};
use crate::image::{Image, Interface, Layer, MAXIMA, NONE, Stage, Step, kind, tag};

/// An accepted image of 64 layers, each inside the last and entered from there; every other step jumps from the
/// innermost to layer 0.
pub fn deepest() -> Image {
    let layers = MAXIMA[LAYERS] as u16;
    let entering = |layer: u16| Step { tag: tag::TRANSFER, a: 0, b: layer + 1, ports: vec![] };
    let jump = Step { tag: tag::DIVERGE, a: 0, b: NONE, ports: vec![] };
    let stage = |layer: u16| Stage {
        interface: layer,
        layer,
        steps: if layer + 1 < layers { vec![entering(layer)] } else { vec![] },
        transfer: NONE,
        ..Stage::default()
    };
    let mut stages: Vec<Stage> = (0..layers).map(stage).collect();
    stages[layers as usize - 1].steps = vec![jump; MAXIMA[STEPS] - (layers as usize - 1)];
    let layer = |n: u16| Layer { parent: n.checked_sub(1).unwrap_or(NONE), stages: vec![n] };
    let on_stage = |n: u16| Interface { layer: n, ..interface(kind::UNCONDITIONAL, &[n]) };
    Image {
        layers: (0..layers).map(layer).collect(),
        interfaces: (0..layers).map(on_stage).collect(),
        stages,
        ..Image::default()
    }
}
