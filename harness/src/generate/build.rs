//! The building of a valid image: types, locals and layers, then interfaces with their stages, then what stages hold.

use super::{
    builder::{Budget, Builder},
    bytes::section::*,
    mood::Mood,
    rng::Rng,
};
use crate::image::{Image, Interface, Layer, Local, MAXIMA, NONE, SELF_INVERSE, Stage, Type, kind};

pub(super) fn build(rng: &mut Rng, mood: Mood) -> Image {
    // Room for the Transfers that enter layers, each with a port, which are placed last.
    let entering = mood.layers;
    let left = Budget {
        steps: MAXIMA[STEPS] - entering,
        ports: MAXIMA[PORTS] - entering,
        refs: MAXIMA[REFS] - MAXIMA[STAGES],
    };
    let mut builder = Builder { rng, mood, left, image: Image::default() };
    builder.types_and_locals();
    builder.layers();
    builder.interfaces_and_stages();
    builder.fill_stages();
    builder.connect_interfaces();
    builder.enter_layers();
    builder.image
}

impl Builder<'_> {
    fn types_and_locals(&mut self) {
        for _ in 0..self.mood.types {
            let (upright, inverted) = (self.rng.below(16) as u8, self.rng.below(16) as u8);
            self.image.types.push(Type { upright, inverted });
        }
        for _ in 0..self.mood.locals {
            let local = Local { span: self.rng.span(), ty: self.ty(), flags: self.flags() };
            self.image.locals.push(local);
        }
    }

    fn flags(&mut self) -> u8 {
        let self_inverse = if self.rng.chance(self.mood.self_inverse) { SELF_INVERSE } else { 0 };
        self.rng.below(8) as u8 | self_inverse
    }

    fn layers(&mut self) {
        for number in 0..self.mood.layers {
            let parent = match number {
                0 => NONE,
                _ if self.rng.chance(self.mood.roots) => NONE,
                // The layer just before makes deep nests.
                _ if self.rng.chance(60) => number as u16 - 1,
                _ => self.rng.below(number) as u16,
            };
            self.image.layers.push(Layer { parent, stages: Vec::new() });
        }
    }

    fn is_parent(&self, layer: usize) -> bool {
        self.image.layers.iter().any(|l| l.parent as usize == layer)
    }

    /// Interfaces and the stages that they list, numbered in an order of their own.
    fn interfaces_and_stages(&mut self) {
        let mut plans = self.plan_interfaces();
        if self.rng.chance(30) {
            self.rng.shuffle(&mut plans);
        }
        let mut owners: Vec<(usize, u16)> = Vec::new();
        for (number, plan) in plans.iter().enumerate() {
            owners.extend(plan.stages.iter().map(|&layer| (number, layer)));
        }
        if self.rng.chance(40) {
            self.rng.shuffle(&mut owners);
        }
        for (number, plan) in plans.iter().enumerate() {
            let own =
                (0..owners.len()).filter(|&s| owners[s].0 == number).map(|s| s as u16).collect::<Vec<_>>();
            let list = self.list(plan.kind, &own);
            let key = if plan.kind == kind::MATCH { self.rng.draw() as u16 } else { 0 };
            self.image.interfaces.push(Interface { layer: plan.layer, kind: plan.kind, key, list });
        }
        for (number, &(interface, layer)) in owners.iter().enumerate() {
            self.image.stages.push(Stage {
                interface: interface as u16,
                layer,
                transfer: NONE,
                ..Stage::default()
            });
            if layer != NONE {
                self.image.layers[layer as usize].stages.push(number as u16);
            }
        }
        for layer in &mut self.image.layers {
            if self.rng.chance(30) {
                self.rng.shuffle(&mut layer.stages);
            }
        }
    }

    /// One interface for each layer first, so that each layer can be entered; then the others.
    fn plan_interfaces(&mut self) -> Vec<Plan> {
        let mut stages_left = self.mood.stages;
        let mut plans = Vec::new();
        for layer in 0..self.mood.layers {
            // A layer with children needs a stage of its own to hold the Transfer that enters them.
            let needed = self.is_parent(layer);
            let later = (layer + 1..self.mood.layers).filter(|&l| self.is_parent(l)).count();
            let most = stages_left - later;
            let plan = self.plan(layer as u16, most, needed);
            stages_left -= plan.stages.len();
            plans.push(plan);
        }
        while plans.len() < self.mood.interfaces {
            let layer = match self.mood.layers {
                0 if self.rng.chance(20) => self.rng.draw() as u16,
                0 => NONE,
                layers => self.rng.below(layers) as u16,
            };
            // Where interface 0 has no stage, nothing else is reached: enough such images, but not too many.
            let first = plans.is_empty();
            let needed = first && self.rng.chance(85);
            let most = if first && !needed && self.rng.chance(50) { 0 } else { stages_left };
            let plan = self.plan(layer, most, needed);
            stages_left -= plan.stages.len();
            plans.push(plan);
        }
        plans
    }

    fn plan(&mut self, layer: u16, most: usize, needed: bool) -> Plan {
        let kind = match () {
            _ if most == 0 => self.rng.pick(&[kind::MATCH, kind::INSPECT]),
            _ if needed => {
                self.rng.pick(&[kind::UNCONDITIONAL, kind::UNCONDITIONAL, kind::BRANCH, kind::CLOSURE])
            }
            _ if self.rng.chance(self.mood.inspect) => kind::INSPECT,
            _ => self.rng.pick(&[
                kind::UNCONDITIONAL,
                kind::UNCONDITIONAL,
                kind::UNCONDITIONAL,
                kind::BRANCH,
                kind::BRANCH,
                kind::MATCH,
                kind::CLOSURE,
            ]),
        };
        let wanted = match kind {
            kind::UNCONDITIONAL => 1,
            kind::BRANCH => self.rng.between(1, 2),
            kind::MATCH => self.rng.between(0, 4),
            kind::CLOSURE => self.rng.between(1, 3),
            _ => 0,
        };
        let mut stages: Vec<u16> = (0..wanted.min(most)).map(|_| self.stage_layer(layer)).collect();
        if needed && self.mood.layers > 0 {
            stages[0] = layer;
        }
        Plan { layer, kind, stages }
    }

    /// The layer of a stage: mostly its interface's, but no rule ties them.
    fn stage_layer(&mut self, layer: u16) -> u16 {
        match self.mood.layers {
            0 => NONE,
            layers if self.rng.chance(self.mood.tangle) => self.rng.below(layers) as u16,
            _ => layer,
        }
    }

    /// An interface's list that names each of its own stages at least once.
    fn list(&mut self, kind: u8, own: &[u16]) -> Vec<u16> {
        let list = match kind {
            kind::BRANCH => vec![own[0], own[own.len() - 1]],
            kind::CLOSURE => self.closure_list(own),
            kind::MATCH => self.match_list(own),
            kind::INSPECT => self.some_locals(0, 3),
            _ => own.to_vec(),
        };
        self.left.refs -= list.len().min(self.left.refs);
        list
    }

    fn closure_list(&mut self, own: &[u16]) -> Vec<u16> {
        let mut list = own.to_vec();
        while list.len() < 3 {
            let entry = if self.rng.chance(75) { NONE } else { own[0] };
            let at = self.rng.between(1, list.len());
            list.insert(at, entry);
        }
        list
    }

    fn match_list(&mut self, own: &[u16]) -> Vec<u16> {
        let mut list = own.to_vec();
        while !own.is_empty() && self.rng.chance(30) {
            list.push(self.rng.pick(own));
        }
        self.rng.shuffle(&mut list);
        list
    }
}

/// An interface before numbers are given: its layer, its kind, and the layers of its own stages.
struct Plan {
    layer: u16,
    kind: u8,
    stages: Vec<u16>,
}
