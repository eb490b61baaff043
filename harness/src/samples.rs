//! Images with a name: document 01's examples, a loop with a jump out of it, and those of docs/SLIPS.md.

use crate::image::*;

/// A name, and the image of that name.
pub type Sample = (&'static str, fn() -> Image);

/// A slip's image, which stands as hex in a file.
macro_rules! slip {
    ($name:literal) => {
        (concat!("slip-", $name), || of_hex(include_str!(concat!("../slips/images/", $name, ".hex"))))
    };
}

pub const SAMPLES: [Sample; 19] = [
    ("example", || example(vec![invoke(tag::BARRIER, 8), invoke(tag::READ, 9)])),
    ("clean", || example(vec![invoke(tag::READ, 9)])),
    ("endless", endless),
    ("split", split),
    ("loop", loop_with_a_jump_out),
    slip!("two-rounds"),
    slip!("first-in-first-out"),
    slip!("arrival"),
    slip!("ports-after"),
    slip!("reached-inspect"),
    slip!("strict-diagnostics"),
    slip!("join-order-only"),
    slip!("triple-only"),
    slip!("infinite-twice"),
    slip!("barrier-merge"),
    slip!("never-union"),
    slip!("input-without-pass"),
    slip!("exterior-pass"),
    slip!("exterior-barrier"),
];

/// Images whose normalised image has as many locals as there may be, and one more.
pub const CROWDED: [Sample; 2] = [("full", || crowd(0)), ("over", || crowd(1))];

/// Sixteen jumps past sixteen open wires: the normalised image has 256 new locals, which is the maximum.
fn crowd(locals: usize) -> Image {
    let wire = |b| Port { kind: port::WIRE, b, ..Port::default() };
    let jumps = stage(0, 0, vec![diverge(0); 16]);
    Image {
        layers: vec![Layer { parent: NONE, stages: vec![0] }],
        interfaces: vec![unconditional(0, 0)],
        stages: vec![Stage { header: header::ENTRY, ports: (0..16).map(wire).collect(), ..jumps }],
        locals: vec![Local::default(); locals],
        types: vec![Type::default()],
    }
}

/// The image whose bytes stand as pairs of hex digits in lines.
fn of_hex(text: &str) -> Image {
    let digits: Vec<u32> = text.chars().filter_map(|c| c.to_digit(16)).collect();
    let bytes: Vec<u8> = digits.chunks(2).map(|pair| (16 * pair[0] + pair[1]) as u8).collect();
    Image::decode(&bytes)
}

/// Document 01's example of 38 bytes, with the steps given.
fn example(steps: Vec<Step>) -> Image {
    Image { interfaces: vec![unconditional(NONE, 0)], stages: vec![declaring(NONE, steps)], ..one_local() }
}

/// Document 01's interface whose only stage transfers to it.
fn endless() -> Image {
    Image {
        interfaces: vec![unconditional(NONE, 0), unconditional(NONE, 1)],
        stages: vec![declaring(NONE, vec![transfer(1)]), stage(1, NONE, vec![transfer(1)])],
        ..one_local()
    }
}

/// Document 01's root layer whose stage jumps to the layer's end.
fn split() -> Image {
    Image {
        layers: vec![Layer { parent: NONE, stages: vec![0] }],
        interfaces: vec![unconditional(0, 0)],
        stages: vec![Stage { transfer: 0, ..stage(0, 0, vec![diverge(0)]) }],
        ..Image::default()
    }
}

/// `x = 1; loop { if ... { x = x + 1 } else { break } } use(x)`: layer 1 is the loop, its second stage jumps out.
fn loop_with_a_jump_out() -> Image {
    let around = stage(1, 1, vec![invoke(tag::READ, 2), invoke(tag::WRITE, 3)]);
    let before = vec![invoke(tag::BARRIER_WRITE, 1), transfer(1), invoke(tag::READ_BARRIER, 4)];
    Image {
        layers: vec![Layer { parent: NONE, stages: vec![0] }, Layer { parent: 0, stages: vec![1, 2] }],
        interfaces: vec![
            unconditional(0, 0),
            Interface { layer: 1, kind: kind::BRANCH, key: 0, list: vec![1, 2] },
        ],
        stages: vec![declaring(0, before), Stage { transfer: 1, ..around }, stage(1, 1, vec![diverge(1)])],
        ..one_local()
    }
}

fn one_local() -> Image {
    let locals = vec![Local { span: 0, ty: 0, flags: FORK | DROP }];
    Image { locals, types: vec![Type::default()], ..Image::default() }
}

fn unconditional(layer: u16, stage: u16) -> Interface {
    Interface { layer, kind: kind::UNCONDITIONAL, key: 0, list: vec![stage] }
}

/// A Bare stage without declarations and without a transfer.
fn stage(interface: u16, layer: u16, steps: Vec<Step>) -> Stage {
    Stage { interface, layer, steps, transfer: NONE, ..Stage::default() }
}

/// A stage of interface 0 that declares local 0.
fn declaring(layer: u16, steps: Vec<Step>) -> Stage {
    Stage { declarations: vec![0], ..stage(0, layer, steps) }
}

/// An invocation of local 0 with ports that hold nothing.
fn invoke(tag: u8, span: u32) -> Step {
    let ports = if tag == tag::BARRIER { 0 } else { 1 };
    Step { tag, a: span, b: 0, ports: vec![Port::default(); ports] }
}

fn transfer(interface: u16) -> Step {
    Step { tag: tag::TRANSFER, a: 0, b: interface, ports: vec![] }
}

/// A jump to the end of a layer.
fn diverge(target: u32) -> Step {
    Step { tag: tag::DIVERGE, a: target, b: NONE, ports: vec![] }
}
