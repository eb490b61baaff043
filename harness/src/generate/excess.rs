//! Layered images whose normalised image is at a maximum or over it.

use super::{bytes::section::*, grow::grow, rng::Rng, valid::find_layered};
use crate::image::{Image, Interface, Layer, MAXIMA, NONE, Port, Stage, Step, Type, kind, port, tag};

/// The counts of the normalised image, without making it. The image is valid and layered.
pub fn normalised_counts(image: &Image) -> [usize; 8] {
    let divergences = layer_divergences(image);
    let splits_at_door = |layer: usize| {
        let parent = image.layers[layer].parent;
        parent != NONE && divergences[layer] <= parent as usize
    };
    let mut counts = image.counts();
    counts[LAYERS] = 0;
    counts[REFS] -= image.stages.len();
    for stage in &image.stages {
        let mut open = std::collections::BTreeSet::new();
        stage.ports.iter().for_each(|p| toggle(&mut open, p));
        for step in &stage.steps {
            step.ports.iter().for_each(|p| toggle(&mut open, p));
            if step_divergence(image, &divergences, step) > stage.layer as usize {
                continue;
            }
            counts[INTERFACES] += 1;
            counts[STAGES] += 1;
            counts[LOCALS] += open.len();
            counts[STEPS] += 2 * open.len();
            counts[PORTS] += 2 * open.len();
            counts[REFS] += 1 + open.len();
            let vanishes = step.tag == tag::DIVERGE && step.b == NONE && !splits_at_door(step.a as usize);
            counts[STEPS] -= usize::from(vanishes);
        }
        let ends = stage.transfer != NONE || splits_at_door(stage.layer as usize);
        counts[STEPS] += usize::from(ends);
    }
    counts
}

fn toggle(open: &mut std::collections::BTreeSet<u16>, port: &Port) {
    if port.kind == port::WIRE && !open.remove(&port.b) {
        open.insert(port.b);
    }
}

/// Children have the higher numbers, so they are known before their parents.
fn layer_divergences(image: &Image) -> Vec<usize> {
    let mut divergences = vec![usize::MAX; image.layers.len()];
    for (number, layer) in image.layers.iter().enumerate().rev().filter(|(_, l)| l.parent != NONE) {
        let steps = layer.stages.iter().flat_map(|&s| &image.stages[s as usize].steps);
        let least = steps.map(|step| step_divergence(image, &divergences, step)).min();
        divergences[number] = least.unwrap_or(number).min(number);
    }
    divergences
}

fn step_divergence(image: &Image, divergences: &[usize], step: &Step) -> usize {
    match step.tag {
        tag::DIVERGE => step.a as usize,
        tag::TRANSFER => divergences[image.interfaces[step.b as usize].layer as usize],
        _ => usize::MAX,
    }
}

/// A valid layered image whose normalised image has one count at its maximum or a little over it; or one whose new
/// locals bring it there or far over.
pub(super) fn excess(rng: &mut Rng) -> Image {
    if rng.chance(10) {
        return many_locals(rng);
    }
    let section = rng.pick(&[INTERFACES, STAGES, LOCALS, STEPS, PORTS, REFS]);
    let over = rng.pick(&[0, 1, 1, 2]);
    let (mut image, ()) = find_layered(rng, |image, _| {
        let normal = normalised_counts(image)[section];
        // Stages bring refs, of which there must be enough left.
        let small = normal <= MAXIMA[section] && image.counts()[REFS] < MAXIMA[REFS] / 2;
        let gains = normal >= image.counts()[section] + over;
        (small && gains && !image.types.is_empty() && !image.stages.is_empty()).then_some(())
    });
    grow(rng, &mut image, LOCALS, 1);
    let normal = normalised_counts(&image)[section];
    let count = image.counts()[section] + MAXIMA[section] + over - normal;
    grow(rng, &mut image, section, count);
    image
}

/// One stage with many open wires and many Diverges: each Diverge asks for a local per wire. What they leave of the
/// maximum the image has itself.
fn many_locals(rng: &mut Rng) -> Image {
    let mut image = Image {
        layers: vec![Layer { parent: NONE, stages: vec![0] }],
        interfaces: vec![Interface { layer: 0, kind: kind::UNCONDITIONAL, key: 0, list: vec![0] }],
        types: vec![Type { upright: rng.below(16) as u8, inverted: rng.below(16) as u8 }],
        ..Image::default()
    };
    let (wires, splits) = if rng.chance(50) { few_for_all(rng) } else { many(rng) };
    let wire = |b: usize| Port { ty: 0, kind: port::WIRE, a: b as u32, b: b as u16 };
    let list = Step { tag: tag::LIST, a: 0, b: 0, ports: (0..wires).map(wire).collect() };
    let diverge = Step { tag: tag::DIVERGE, a: 0, b: rng.pick(&[0, NONE]), ports: vec![] };
    let mut steps = vec![list];
    steps.extend(std::iter::repeat_n(diverge, splits));
    image.stages.push(Stage { steps, transfer: NONE, wires: wires as u16, ..Stage::default() });
    let wanted = MAXIMA[LOCALS] + rng.below(2);
    grow(rng, &mut image, LOCALS, wanted.saturating_sub(wires * splits));
    image
}

fn many(rng: &mut Rng) -> (usize, usize) {
    let wires = rng.pick(&[16, 255, 256, 257, 1000, MAXIMA[PORTS]]);
    (wires, rng.pick(&[1, 2, 16, 255, 256, MAXIMA[STEPS] - 1]))
}

/// As few wires and Diverges as ask for nearly all locals there can be: such an image is short.
fn few_for_all(rng: &mut Rng) -> (usize, usize) {
    let wires = rng.between(7, 32);
    (wires, MAXIMA[LOCALS] / wires)
}
