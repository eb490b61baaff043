//! Counts of ports, and small records that several families are made of.

use crate::image::{Image, Interface, Local, NONE, Port, Stage, Step, Type, tag};

/// No upper bound.
const MANY: usize = usize::MAX;

/// The least and the most header ports, by tag.
#[rustfmt::skip]
pub(super) const HEADER_PORTS: [(usize, usize); 8] = [(0, 0), (1, 1), (1, MANY), (1, 1), (1, MANY), (2, 2), (0, 0), (0, MANY)];

/// The least and the most ports of a step, by tag.
#[rustfmt::skip]
pub(super) const STEP_PORTS: [(usize, usize); 21] = [
    (0, 0), (1, 1), (1, 1), (1, 1), (1, 1), (2, 2), (0, 1), (0, 1),
    (2, 2), (1, MANY), (1, 1), (1, MANY), (2, 2), (2, 2), (2, 2), (3, 3), (1, MANY), (1, MANY), (1, MANY), (2, 2), (3, 3),
];

pub(super) fn within((least, most): (usize, usize), count: usize) -> bool {
    (least..=most).contains(&count)
}

pub(super) fn nil() -> Port {
    Port::default()
}

pub(super) fn interface(kind: u8, list: &[u16]) -> Interface {
    Interface { layer: NONE, kind, key: 0, list: list.to_vec() }
}

/// Letters 0..5 invoke local 0, the span saying where; the others transfer to interfaces 0, 1, ..
pub(super) fn flat_steps(letters: Vec<usize>, span: u32) -> Vec<Step> {
    let step = |(at, letter): (usize, usize)| match letter {
        0..6 => {
            let ports = vec![nil(); STEP_PORTS[letter].0];
            Step { tag: letter as u8, a: span + at as u32, b: 0, ports }
        }
        _ => Step { tag: tag::TRANSFER, a: 0, b: letter as u16 - 6, ports: vec![] },
    };
    letters.into_iter().enumerate().map(step).collect()
}

/// A flat image with one type and one local of the chosen flags.
pub(super) fn flat(flags: usize, interfaces: Vec<Interface>, stages: Vec<Stage>) -> Image {
    let local = Local { span: 9, ty: 0, flags: flags as u8 };
    Image { layers: vec![], interfaces, stages, locals: vec![local], types: vec![Type::default()] }
}

pub(super) fn flat_stage(interface: u16, declares: bool, steps: Vec<Step>) -> Stage {
    let declarations = if declares { vec![0] } else { vec![] };
    Stage { interface, layer: NONE, declarations, steps, transfer: NONE, ..Stage::default() }
}
