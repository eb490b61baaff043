//! Layered images that break one layer rule.

use super::{
    picks::{no_record, some_step},
    rng::{Rng, some},
    valid::find_layered,
};
use crate::check::Rule;
use crate::image::{Image, NONE, Step, tag};

pub(super) fn layer_fault(rule: Rule, rng: &mut Rng) -> Image {
    match rule {
        Rule::ParentBelowChild => parent_above(rng),
        Rule::LayerListsOther => listed_by_other_layer(rng),
        Rule::LayerListsTwice => listed_twice(rng),
        Rule::LayerListsNot => listed_by_no_layer(rng),
        Rule::InterfaceLayer => interface_layer(rng),
        Rule::TransferFromParent => entered_from_elsewhere(rng),
        Rule::LayerEntered => entered_not_once(rng),
        _ => diverge_to_stranger(rng),
    }
}

/// A child that is numbered below its parent, or a layer that is its own parent; all else holds.
fn parent_above(rng: &mut Rng) -> Image {
    if rng.chance(40) {
        return own_parent(rng);
    }
    let (mut image, child) =
        find_layered(rng, |image, rng| some(rng, image.layers.len(), |n| image.layers[n].parent != NONE));
    let parent = image.layers[child].parent;
    let swap = |layer: u16| match layer {
        layer if layer == parent => child as u16,
        layer if layer as usize == child => parent,
        layer => layer,
    };
    image.layers.swap(child, parent as usize);
    image.layers.iter_mut().for_each(|l| l.parent = swap(l.parent));
    image.interfaces.iter_mut().for_each(|i| i.layer = swap(i.layer));
    image.stages.iter_mut().for_each(|s| s.layer = swap(s.layer));
    let steps = image.stages.iter_mut().flat_map(|s| &mut s.steps);
    steps.filter(|s| s.tag == tag::DIVERGE).for_each(|s| s.a = swap(s.a as u16) as u32);
    image
}

/// A root layer made its own parent and entered once, from its own stage.
fn own_parent(rng: &mut Rng) -> Image {
    let (mut image, (layer, door)) = find_layered(rng, |image, rng| {
        let layer = some(rng, image.layers.len(), |n| {
            image.layers[n].parent == NONE && !image.layers[n].stages.is_empty()
        })?;
        let door = some(rng, image.interfaces.len(), |n| image.interfaces[n].layer as usize == layer)?;
        Some((layer, door))
    });
    image.layers[layer].parent = layer as u16;
    let layers: Vec<u16> = image.interfaces.iter().map(|i| i.layer).collect();
    for stage in &mut image.stages {
        stage.steps.retain(|s| s.tag != tag::TRANSFER || layers[s.b as usize] as usize != layer);
    }
    let stage = rng.pick(&image.layers[layer].stages) as usize;
    image.stages[stage].steps.push(Step { tag: tag::TRANSFER, a: 0, b: door as u16, ports: vec![] });
    image
}

fn listed_by_other_layer(rng: &mut Rng) -> Image {
    let (mut image, stage) = find_layered(rng, |image, rng| some(rng, image.stages.len(), |_| true));
    let own = image.stages[stage].layer as usize;
    let Some(other) = some(rng, image.layers.len(), |n| n != own) else {
        // With one layer the field can only say none.
        image.stages[stage].layer = NONE;
        return image;
    };
    if rng.chance(60) {
        image.layers[own].stages.retain(|&s| s as usize != stage);
    }
    let at = rng.between(0, image.layers[other].stages.len());
    image.layers[other].stages.insert(at, stage as u16);
    image
}

fn listed_twice(rng: &mut Rng) -> Image {
    let (mut image, stage) = find_layered(rng, |image, rng| some(rng, image.stages.len(), |_| true));
    let list = &mut image.layers[image.stages[stage].layer as usize].stages;
    let at = rng.between(0, list.len());
    list.insert(at, stage as u16);
    image
}

fn listed_by_no_layer(rng: &mut Rng) -> Image {
    let (mut image, stage) = find_layered(rng, |image, rng| some(rng, image.stages.len(), |_| true));
    image.layers[image.stages[stage].layer as usize].stages.retain(|&s| s as usize != stage);
    if rng.chance(40) {
        image.stages[stage].layer = NONE;
    }
    image
}

fn interface_layer(rng: &mut Rng) -> Image {
    let (mut image, number) = find_layered(rng, |image, rng| some(rng, image.interfaces.len(), |_| true));
    image.interfaces[number].layer = no_record(rng, image.layers.len(), true);
    image
}

/// The Transfer that enters a layer with a parent: the layer, its stage and its number there.
fn some_entry(image: &Image, rng: &mut Rng) -> Option<(usize, usize, usize)> {
    let inner = |s: &Step| image.interfaces[s.b as usize].layer as usize;
    let enters = |s: &Step| s.tag == tag::TRANSFER && image.layers[inner(s)].parent != NONE;
    let (stage, at) = some_step(image, rng, enters)?;
    Some((inner(&image.stages[stage].steps[at]), stage, at))
}

/// The one Transfer into a layer moved to a stage that does not stand in the parent.
fn entered_from_elsewhere(rng: &mut Rng) -> Image {
    let (mut image, (stage, at, other)) = find_layered(rng, |image, rng| {
        let (layer, stage, at) = some_entry(image, rng)?;
        let parent = image.layers[layer].parent;
        let other = some(rng, image.stages.len(), |n| image.stages[n].layer != parent)?;
        Some((stage, at, other))
    });
    let step = image.stages[stage].steps.remove(at);
    let to = rng.between(0, image.stages[other].steps.len());
    image.stages[other].steps.insert(to, step);
    image
}

/// A layer with a parent that is not entered, or is entered twice.
fn entered_not_once(rng: &mut Rng) -> Image {
    let (mut image, (stage, at)) = find_layered(rng, |image, rng| {
        let (_, stage, at) = some_entry(image, rng)?;
        Some((stage, at))
    });
    let step = image.stages[stage].steps.remove(at);
    if rng.chance(50) {
        return image;
    }
    let again = Step { ports: vec![], ..step.clone() };
    let layer = image.stages[stage].layer;
    let other = some(rng, image.stages.len(), |n| image.stages[n].layer == layer).expect("the stage itself");
    image.stages[stage].steps.insert(at, step);
    image.stages[other].steps.push(again);
    image
}

/// A Diverge to a layer that is neither its own nor an ancestor.
fn diverge_to_stranger(rng: &mut Rng) -> Image {
    let (mut image, (stage, target)) = find_layered(rng, |image, rng| {
        let stage = some(rng, image.stages.len(), |_| true)?;
        let above = ancestors(image, image.stages[stage].layer);
        let target = some(rng, image.layers.len(), |n| !above.contains(&(n as u16)))?;
        Some((stage, target))
    });
    let steps = &mut image.stages[stage].steps;
    let at = rng.between(0, steps.len());
    steps.insert(at, Step { tag: tag::DIVERGE, a: target as u32, b: rng.pick(&[0, NONE]), ports: vec![] });
    image
}

/// A layer and everything above it.
fn ancestors(image: &Image, layer: u16) -> Vec<u16> {
    let parent = |&layer: &u16| Some(image.layers[layer as usize].parent).filter(|&p| p != NONE);
    std::iter::successors(Some(layer), parent).collect()
}
