//! What the stages of a valid image hold: header, declarations, steps, ports and transfers.

use super::{
    builder::Builder,
    parts::{HEADER_PORTS, STEP_PORTS},
    rng::some,
};
use crate::image::{INVERSE, NONE, Port, Step, header, kind, port, tag};

/// The wires of one stage while its ports are made.
#[derive(Default)]
struct Wires {
    base: u16,
    next: u16,
    open: Vec<Port>,
}

impl Builder<'_> {
    pub(super) fn fill_stages(&mut self) {
        for number in 0..self.image.stages.len() {
            let base = if self.rng.chance(90) { 0 } else { self.rng.draw() as u16 };
            let mut wires = Wires { base, ..Wires::default() };
            self.fill_header(number, &mut wires);
            if self.rng.chance(self.mood.declare) {
                let declarations = self.some_locals(1, 3);
                self.left.refs -= declarations.len().min(self.left.refs);
                self.image.stages[number].declarations = declarations;
            }
            for _ in 0..self.rng.between(0, self.mood.steps) {
                let step = self.step(number, &mut wires);
                self.image.stages[number].steps.extend(step);
            }
            if self.mood.layers > 0 {
                self.fill_transfer(number, &mut wires);
            }
            let counter = if self.rng.chance(95) {
                wires.base.wrapping_add(wires.next)
            } else {
                self.rng.draw() as u16
            };
            self.image.stages[number].wires = counter;
        }
    }

    fn fill_header(&mut self, number: usize, wires: &mut Wires) {
        let interface = self.image.stages[number].interface as usize;
        let header = match self.image.interfaces[interface].kind {
            _ if self.rng.chance(25) => self.rng.below(8) as u8,
            kind::MATCH => header::MATCH,
            kind::CLOSURE => self.rng.pick(&[header::CLOSURE, header::FORK, header::DROP]),
            _ => self.rng.pick(&[header::BARE, header::BARE, header::FN, header::ENTRY, header::CONST]),
        };
        let (least, most) = HEADER_PORTS[header as usize];
        let count = self.port_count(least, most);
        let stage = &mut self.image.stages[number];
        (stage.span, stage.key) = (self.rng.span(), self.rng.draw() as u32);
        if let Some(count) = count {
            let ports = (0..count).map(|_| self.port(wires)).collect();
            let stage = &mut self.image.stages[number];
            (stage.header, stage.ports) = (header, ports);
        }
    }

    /// A number of ports between the bounds, or none where types or room are missing.
    fn port_count(&mut self, least: usize, most: usize) -> Option<usize> {
        let count = self.rng.between(least, most.min(least + 3));
        let count = if self.mood.types == 0 { 0 } else { count };
        (count >= least && count <= self.left.ports).then(|| {
            self.left.ports -= count;
            count
        })
    }

    /// Closes an open wire, opens one, names any wire, or is no wire.
    fn port(&mut self, wires: &mut Wires) -> Port {
        let wire = |wires: &Wires, n: u16| wires.base.wrapping_add(n);
        let (a, ty) = (self.rng.span(), self.ty());
        if !wires.open.is_empty() && !self.rng.chance(self.mood.open) {
            let at = self.rng.below(wires.open.len());
            let other = wires.open.swap_remove(at);
            return Port { ty: other.ty ^ INVERSE, ..other };
        }
        match self.rng.below(10) {
            0..=5 => {
                let port = Port { ty, kind: port::WIRE, a, b: wire(wires, wires.next) };
                wires.next += 1;
                wires.open.push(port);
                port
            }
            // A wire that may occur a third time, at another type.
            6 | 7 => Port {
                ty,
                kind: port::WIRE,
                a,
                b: wire(wires, self.rng.between(0, wires.next as usize) as u16),
            },
            _ => {
                let kinds = [port::NIL, port::BOOL, port::N32, port::F32, port::F64, port::NAT, port::ERROR];
                Port { ty, kind: self.rng.pick(&kinds), a, b: 0 }
            }
        }
    }

    /// A step for the stage, if the sections have room.
    fn step(&mut self, stage: usize, wires: &mut Wires) -> Option<Step> {
        let layered = self.mood.layers > 0;
        let tag = match self.rng.below(100) {
            0..55 if self.mood.locals > 0 => self.rng.below(6) as u8,
            55..75 => tag::TRANSFER,
            75..90 if layered => tag::DIVERGE,
            _ => self.rng.between(8, 20) as u8,
        };
        let (a, b) = match tag {
            tag::TRANSFER => (0, self.transfer_target(stage)?),
            tag::DIVERGE => self.diverge_target(stage),
            ..tag::TRANSFER => (self.rng.span(), self.local()),
            _ => (self.rng.draw() as u32, 0),
        };
        if self.left.steps == 0 {
            return None;
        }
        let (least, most) = STEP_PORTS[tag as usize];
        let most = if b == NONE { 0 } else { most };
        let count = self.port_count(least, most)?;
        self.left.steps -= 1;
        Some(Step { tag, a, b, ports: (0..count).map(|_| self.port(wires)).collect() })
    }

    /// An interface for a Transfer step of the stage: back or forward, as the mood is.
    fn transfer_target(&mut self, stage: usize) -> Option<u16> {
        let own = self.image.stages[stage].interface as usize;
        let (back, forward): (Vec<usize>, Vec<usize>) =
            (0..self.image.interfaces.len()).filter(|&n| self.is_free(n)).partition(|&n| n <= own);
        if !back.is_empty() && self.rng.chance(self.mood.back) {
            return Some(self.rng.pick(&back) as u16);
        }
        // Near targets make long chains.
        let near = if self.rng.chance(80) { forward.len().min(4) } else { forward.len() };
        (near > 0).then(|| forward[self.rng.below(near)] as u16)
    }

    /// The own layer or an ancestor, and an interface or none.
    fn diverge_target(&mut self, stage: usize) -> (u32, u16) {
        let mut target = self.image.stages[stage].layer;
        let step_out = self.rng.pick(&[20, 60, 90]);
        while self.rng.chance(step_out) && self.image.layers[target as usize].parent != NONE {
            target = self.image.layers[target as usize].parent;
        }
        let interface = if self.rng.chance(50) { NONE } else { self.any_interface(stage) };
        (target as u32, interface)
    }

    fn any_interface(&mut self, stage: usize) -> u16 {
        if self.rng.chance(40) {
            return self.image.stages[stage].interface;
        }
        self.rng.below(self.image.interfaces.len()) as u16
    }

    fn fill_transfer(&mut self, number: usize, wires: &mut Wires) {
        if self.rng.chance(40) {
            return;
        }
        self.image.stages[number].transfer = self.any_interface(number);
        if self.rng.chance(40) && self.port_count(1, 1).is_some() {
            self.image.stages[number].data = Some(self.port(wires));
        }
    }

    /// Whether Transfer steps may name an interface any number of times: in a layered image its layer is a root.
    fn is_free(&self, interface: usize) -> bool {
        let layer = self.image.interfaces[interface].layer as usize;
        self.image.layers.is_empty() || self.image.layers[layer].parent == NONE
    }

    /// Transfers that make later interfaces reachable, which chance alone seldom does.
    pub(super) fn connect_interfaces(&mut self) {
        for target in 1..self.image.interfaces.len() {
            let earlier = |stage: usize| (self.image.stages[stage].interface as usize) < target;
            let from = some(self.rng, self.image.stages.len(), earlier);
            if self.left.steps == 0 || !self.is_free(target) || !self.rng.chance(self.mood.connect) {
                continue;
            }
            if let Some(stage) = from {
                self.left.steps -= 1;
                let at = self.rng.between(0, self.image.stages[stage].steps.len());
                let step = Step { tag: tag::TRANSFER, a: 0, b: target as u16, ports: vec![] };
                self.image.stages[stage].steps.insert(at, step);
            }
        }
    }

    /// "every layer with a parent is entered by exactly one Transfer step", from a stage of the parent.
    pub(super) fn enter_layers(&mut self) {
        for layer in 0..self.image.layers.len() {
            let parent = self.image.layers[layer].parent;
            if parent == NONE {
                continue;
            }
            let interfaces = self.image.interfaces.iter().enumerate();
            let doors: Vec<u16> =
                interfaces.filter(|(_, i)| i.layer as usize == layer).map(|(n, _)| n as u16).collect();
            let door = self.rng.pick(&doors);
            let stage = self.rng.pick(&self.image.layers[parent as usize].stages) as usize;
            let at = self.rng.between(0, self.image.stages[stage].steps.len());
            let mut wires = Wires { next: 3, ..Wires::default() };
            let ports =
                if self.mood.types > 0 && self.rng.chance(25) { vec![self.port(&mut wires)] } else { vec![] };
            self.image.stages[stage].steps.insert(at, Step { tag: tag::TRANSFER, a: 0, b: door, ports });
        }
    }
}
