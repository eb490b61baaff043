//! Small valid images, all of them.

use super::parts::{flat, flat_stage, flat_steps, interface};
use crate::image::{INVERSE, Image, Interface, Layer, Local, NONE, Port, Stage, Step, Type, kind, port, tag};

/// A set of images that differ in a few choices, each number below `size` being one image.
pub struct Set {
    pub name: &'static str,
    pub size: usize,
    build: fn(&mut Choices) -> Image,
}

impl Set {
    pub fn image(&self, number: usize) -> Image {
        (self.build)(&mut Choices(number))
    }
}

/// Every set's images in order: 497,184 flat and 53,676 layered ones, all accepted.
pub fn exhaustive_small() -> impl Iterator<Item = Image> {
    SMALL.iter().flat_map(|set| (0..set.size).map(|number| set.image(number)))
}

/// The sets of small valid images. A size is the product of its choices.
pub const SMALL: [Set; 8] = [
    Set { name: "one stage", size: 16 * 2 * 3 * sequences(7, 3), build: one_stage },
    Set { name: "two interfaces", size: 16 * 3 * sequences(8, 2) * sequences(8, 2), build: two_interfaces },
    Set { name: "inspect", size: 16 * 3 * 2 * sequences(8, 3), build: inspect },
    Set { name: "branch", size: 16 * sequences(7, 2) * sequences(8, 1) * sequences(8, 1), build: branch },
    Set { name: "closure", size: 16 * 10 * sequences(7, 2) * sequences(7, 1), build: closure },
    Set { name: "one layer", size: 4 * 3 * sequences(7, 4), build: one_layer },
    Set { name: "two layers", size: 4 * 4 * 2 * 9 * sequences(7, 2), build: two_layers },
    Set { name: "three layers", size: 2 * 2 * 2 * 8 * sequences(7, 2), build: three_layers },
];

/// How many sequences of at most `most` letters there are.
const fn sequences(letters: usize, most: u32) -> usize {
    let (mut sum, mut length) = (0, 0);
    while length <= most {
        sum += letters.pow(length);
        length += 1;
    }
    sum
}

/// A number taken apart into choices.
pub(super) struct Choices(pub(super) usize);

impl Choices {
    pub(super) fn of(&mut self, n: usize) -> usize {
        let choice = self.0 % n;
        self.0 /= n;
        choice
    }

    fn sequence(&mut self, letters: usize, most: u32) -> Vec<usize> {
        let mut number = self.of(sequences(letters, most));
        let mut length = 0;
        while number >= letters.pow(length) {
            number -= letters.pow(length);
            length += 1;
        }
        (0..length).map(|i| number / letters.pow(i) % letters).collect()
    }
}

fn wire(b: u16) -> Port {
    Port { ty: 0, kind: port::WIRE, a: 20 + b as u32, b }
}

fn one_stage(choices: &mut Choices) -> Image {
    let (flags, declares) = (choices.of(16), choices.of(2) == 1);
    let interface = match choices.of(3) {
        0 => interface(kind::UNCONDITIONAL, &[0]),
        1 => interface(kind::BRANCH, &[0, 0]),
        _ => interface(kind::MATCH, &[0, 0, 0]),
    };
    let steps = flat_steps(choices.sequence(7, 3), 10);
    flat(flags, vec![interface], vec![flat_stage(0, declares, steps)])
}

fn two_interfaces(choices: &mut Choices) -> Image {
    let (flags, declared) = (choices.of(16), choices.of(3));
    let interfaces = vec![interface(kind::UNCONDITIONAL, &[0]), interface(kind::UNCONDITIONAL, &[1])];
    let first = flat_stage(0, declared != 1, flat_steps(choices.sequence(8, 2), 10));
    let second = flat_stage(1, declared != 0, flat_steps(choices.sequence(8, 2), 20));
    flat(flags, interfaces, vec![first, second])
}

fn inspect(choices: &mut Choices) -> Image {
    let flags = choices.of(16);
    let locals: [&[u16]; 3] = [&[], &[0], &[0, 0]];
    let inspect = interface(kind::INSPECT, locals[choices.of(3)]);
    let entry = interface(kind::UNCONDITIONAL, &[0]);
    let declares = choices.of(2) == 1;
    let steps = flat_steps(choices.sequence(8, 3), 10);
    flat(flags, vec![entry, inspect], vec![flat_stage(0, declares, steps)])
}

fn branch(choices: &mut Choices) -> Image {
    let flags = choices.of(16);
    let interfaces = vec![interface(kind::UNCONDITIONAL, &[0]), interface(kind::BRANCH, &[1, 2])];
    // Letter 6 goes to the branch here; going back to 0 is left to the two arms.
    let letters = choices.sequence(7, 2).into_iter().map(|letter| if letter == 6 { 7 } else { letter });
    let entry = flat_stage(0, true, flat_steps(letters.collect(), 10));
    let yes = flat_stage(1, false, flat_steps(choices.sequence(8, 1), 20));
    let no = flat_stage(1, false, flat_steps(choices.sequence(8, 1), 30));
    flat(flags, interfaces, vec![entry, yes, no])
}

fn closure(choices: &mut Choices) -> Image {
    const LISTS: [[u16; 3]; 10] = [
        [0, NONE, NONE],
        [0, 0, NONE],
        [0, NONE, 0],
        [0, 0, 0],
        [0, 1, NONE],
        [0, NONE, 1],
        [0, 1, 1],
        [0, 1, 0],
        [0, 0, 1],
        [1, 0, NONE],
    ];
    let (flags, list) = (choices.of(16), LISTS[choices.of(10)]);
    let call = flat_stage(0, true, flat_steps(choices.sequence(7, 2), 10));
    let other = flat_stage(0, false, flat_steps(choices.sequence(7, 1), 20));
    let stages = if list.contains(&1) { vec![call, other] } else { vec![call] };
    flat(flags, vec![interface(kind::CLOSURE, &list)], stages)
}

fn step(tag: u8, a: u32, b: u16, ports: &[Port]) -> Step {
    Step { tag, a, b, ports: ports.to_vec() }
}

/// A layered image of one stage and one Unconditional interface for each parent, with the type's flags chosen.
fn layered(flags: usize, parents: &[u16], stages: Vec<Stage>) -> Image {
    let numbers = 0..parents.len() as u16;
    Image {
        layers: numbers.clone().map(|n| Layer { parent: parents[n as usize], stages: vec![n] }).collect(),
        interfaces: numbers.map(|n| Interface { layer: n, ..interface(kind::UNCONDITIONAL, &[n]) }).collect(),
        stages,
        locals: vec![Local { span: 9, ty: INVERSE, flags: 6 }],
        types: vec![Type { upright: [0, 6, 9, 2][flags], inverted: [1, 7, 9, 4][flags] }],
    }
}

fn layered_stage(number: u16, steps: Vec<Step>, transfer: u16) -> Stage {
    Stage { interface: number, layer: number, steps, transfer, wires: 2, ..Stage::default() }
}

fn one_layer(choices: &mut Choices) -> Image {
    let letter = |letter: usize| match letter {
        0 => step(tag::LINK, 0, 0, &[wire(0), wire(1)]),
        1 => step(tag::CONST, 5, 0, &[wire(0)]),
        2 => step(tag::WRITE, 8, 0, &[wire(1)]),
        3 => step(tag::DIVERGE, 0, NONE, &[]),
        4 => step(tag::DIVERGE, 0, 0, &[]),
        5 => step(tag::DIVERGE, 0, 0, &[wire(0)]),
        _ => step(tag::TRANSFER, 0, 0, &[wire(1)]),
    };
    let (flags, transfer) = (choices.of(4), choices.of(3));
    let steps = choices.sequence(7, 4).into_iter().map(letter).collect();
    let mut stage = layered_stage(0, steps, if transfer == 0 { NONE } else { 0 });
    stage.data = (transfer == 2).then(|| wire(0));
    layered(flags, &[NONE], vec![stage])
}

/// Nothing, a wire half built, a Link or a jump, before or after a layer is entered.
fn beside(choice: usize) -> Option<Step> {
    match choice {
        0 => None,
        1 => Some(step(tag::CONST, 5, 0, &[wire(0)])),
        2 => Some(step(tag::LINK, 0, 0, &[wire(0), wire(1)])),
        _ => Some(step(tag::DIVERGE, 0, NONE, &[])),
    }
}

fn two_layers(choices: &mut Choices) -> Image {
    let letter = |letter: usize| match letter {
        0 => step(tag::CONST, 5, 0, &[wire(0)]),
        1 => step(tag::DIVERGE, 1, NONE, &[]),
        2 => step(tag::DIVERGE, 1, 1, &[]),
        3 => step(tag::DIVERGE, 0, NONE, &[]),
        4 => step(tag::DIVERGE, 0, 0, &[wire(1)]),
        5 => step(tag::TRANSFER, 0, 0, &[]),
        _ => step(tag::READ, 8, 0, &[wire(1)]),
    };
    let (before, after) = (choices.of(4), choices.of(4));
    let data: &[Port] = if choices.of(2) == 1 { &[wire(0)] } else { &[] };
    let transfer = [NONE, 0, 1];
    let (outer_ends, inner_ends) = (transfer[choices.of(3)], transfer[choices.of(3)]);
    let entering = step(tag::TRANSFER, 0, 1, data);
    let outer = beside(before).into_iter().chain([entering]).chain(beside(after)).collect();
    let inner = choices.sequence(7, 2).into_iter().map(letter).collect();
    let stages = vec![layered_stage(0, outer, outer_ends), layered_stage(1, inner, inner_ends)];
    layered(1, &[NONE, 0], stages)
}

/// Each layer inside the last, and jumps out of the innermost.
fn three_layers(choices: &mut Choices) -> Image {
    let letter = |letter: usize| match letter {
        0 => step(tag::CONST, 5, 0, &[wire(0)]),
        1..4 => step(tag::DIVERGE, letter as u32 - 1, NONE, &[]),
        _ => step(tag::DIVERGE, letter as u32 - 4, letter as u16 - 4, &[]),
    };
    let outer_open = beside(choices.of(2));
    let middle_open = beside(choices.of(2));
    let middle_after = beside(choices.of(2));
    let mut ends = |own: u16| if choices.of(2) == 1 { own } else { NONE };
    let (outer_ends, middle_ends, inner_ends) = (ends(0), ends(1), ends(2));
    let outer = outer_open.into_iter().chain([step(tag::TRANSFER, 0, 1, &[])]).collect();
    let entering = step(tag::TRANSFER, 0, 2, &[]);
    let middle = middle_open.into_iter().chain([entering]).chain(middle_after).collect();
    let inner = choices.sequence(7, 2).into_iter().map(letter).collect();
    let stages = vec![
        layered_stage(0, outer, outer_ends),
        layered_stage(1, middle, middle_ends),
        layered_stage(2, inner, inner_ends),
    ];
    layered(1, &[NONE, 0, 1], stages)
}
