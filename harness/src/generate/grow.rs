//! Records added to a valid image up to some count.

use super::{
    bytes::section::*,
    rng::{Rng, some},
};
use crate::image::{
    INVERSE, Image, Interface, Layer, Local, NONE, Port, Stage, Step, Type, header, kind, port, tag,
};

/// Adds records to a section of a valid image until it has `count`; the image stays valid but for its maxima. Ports and
/// refs added are plain: no wire, no new stage. Stages bring the refs that list them.
pub fn grow(rng: &mut Rng, image: &mut Image, section: usize, count: usize) {
    let missing = |image: &Image| count.saturating_sub(image.counts()[section]);
    // Again, since a Closure that becomes a Match loses the entries that name none.
    while missing(image) > 0 {
        for _ in 0..missing(image) {
            add(rng, image, section);
        }
    }
}

fn add(rng: &mut Rng, image: &mut Image, section: usize) {
    match section {
        LAYERS => image.layers.push(Layer { parent: NONE, stages: vec![] }),
        INTERFACES => add_interface(rng, image),
        STAGES => add_stage(rng, image),
        LOCALS => add_local(rng, image),
        TYPES => image.types.push(Type { upright: rng.below(16) as u8, inverted: rng.below(16) as u8 }),
        STEPS => add_step(rng, image),
        PORTS => add_port(rng, image),
        _ => add_ref(rng, image),
    }
}

fn some_layer(rng: &mut Rng, image: &Image) -> u16 {
    if image.layers.is_empty() { NONE } else { rng.below(image.layers.len()) as u16 }
}

fn some_type(rng: &mut Rng, image: &Image) -> u16 {
    rng.below(image.types.len()) as u16 | rng.pick(&[0, INVERSE])
}

pub(super) fn add_interface(rng: &mut Rng, image: &mut Image) {
    let layer = some_layer(rng, image);
    image.interfaces.push(Interface { layer, kind: kind::INSPECT, key: 0, list: vec![] });
}

/// An interface made a Match, so that it may list any number of stages.
fn some_match(rng: &mut Rng, image: &mut Image) -> usize {
    let number = rng.below(image.interfaces.len());
    let interface = &mut image.interfaces[number];
    if interface.kind == kind::INSPECT {
        interface.list.clear();
    }
    interface.kind = kind::MATCH;
    interface.list.retain(|&stage| stage != NONE);
    number
}

fn add_stage(rng: &mut Rng, image: &mut Image) {
    let (number, layer) = (image.stages.len() as u16, some_layer(rng, image));
    let interface = some_match(rng, image);
    image.interfaces[interface].list.push(number);
    if layer != NONE {
        image.layers[layer as usize].stages.push(number);
    }
    image.stages.push(Stage { interface: interface as u16, layer, transfer: NONE, ..Stage::default() });
}

fn add_local(rng: &mut Rng, image: &mut Image) {
    let ty = some_type(rng, image);
    image.locals.push(Local { span: rng.span(), ty, flags: rng.below(16) as u8 });
}

/// A step without ports, which never splits: a Barrier, or a Transfer to an interface of a root layer.
fn add_step(rng: &mut Rng, image: &mut Image) {
    let root = |n: usize| {
        let layer = image.interfaces[n].layer as usize;
        image.layers.is_empty() || image.layers[layer].parent == NONE
    };
    let target = some(rng, image.interfaces.len(), root);
    let (tag, b) = match target {
        Some(target) if image.locals.is_empty() || rng.chance(10) => (tag::TRANSFER, target),
        _ => (tag::BARRIER, rng.below(image.locals.len())),
    };
    let stage = rng.below(image.stages.len());
    let steps = &mut image.stages[stage].steps;
    let at = rng.between(0, steps.len());
    steps.insert(at, Step { tag, a: 0, b: b as u16, ports: vec![] });
}

/// A port for a List that is there, or for a stage whose header becomes an Entry.
fn add_port(rng: &mut Rng, image: &mut Image) {
    let new = Port { ty: some_type(rng, image), kind: port::N32, a: rng.draw() as u32, b: 0 };
    let number = rng.below(image.stages.len());
    let stage = &mut image.stages[number];
    match stage.steps.iter_mut().find(|step| step.tag == tag::LIST) {
        Some(list) => list.ports.push(new),
        None => {
            stage.header = header::ENTRY;
            stage.ports.push(new);
        }
    }
}

/// A further mention of a stage by its own interface, or of a local by a stage or an Inspect.
fn add_ref(rng: &mut Rng, image: &mut Image) {
    let locals = image.locals.len();
    if !image.stages.is_empty() && (locals == 0 || rng.chance(30)) {
        let stage = rng.below(image.stages.len());
        let interface = &mut image.interfaces[image.stages[stage].interface as usize];
        interface.kind = kind::MATCH;
        interface.list.retain(|&stage| stage != NONE);
        interface.list.push(stage as u16);
    } else if !image.stages.is_empty() {
        let stage = rng.below(image.stages.len());
        image.stages[stage].declarations.push(rng.below(locals) as u16);
    } else {
        let inspect = &mut image.interfaces[0];
        inspect.kind = kind::INSPECT;
        inspect.list.push(rng.below(locals) as u16);
    }
}
