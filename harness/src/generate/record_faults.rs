//! Images with one record that breaks its rule, and the place of that record.

use super::{
    bytes::{LISTS, Layout, append, cut, get16, put16, section::*},
    parts::{HEADER_PORTS, STEP_PORTS, within},
    picks::{no_record, some_step},
    rng::{Rng, some},
    valid::{any_valid, find},
};
use crate::check::Rule;
use crate::image::{INVERSE, Image, Interface, NONE, Port, Stage, Step, kind, port, tag};

/// A handle that names none of `count` types, upright or inverse.
fn no_type(rng: &mut Rng, count: usize) -> u16 {
    let number = if rng.chance(60) { count } else { rng.between(count, 0x7fff) };
    number as u16 | if rng.chance(50) { INVERSE } else { 0 }
}

/// A byte that is at least `low`.
fn byte_from(rng: &mut Rng, low: usize) -> u8 {
    if rng.chance(50) { low as u8 } else { rng.between(low, 255) as u8 }
}

fn not_zero(rng: &mut Rng) -> u16 {
    if rng.chance(50) { 1 << rng.below(16) } else { rng.between(1, NONE as usize) as u16 }
}

/// How many steps stand before a stage's own.
fn steps_before(image: &Image, stage: usize) -> usize {
    image.stages[..stage].iter().map(|s| s.steps.len()).sum()
}

pub(super) fn record_fault(rule: Rule, rng: &mut Rng) -> (Vec<u8>, usize) {
    match rule {
        Rule::LayerListPlace => list_place(rng, LISTS[0]),
        Rule::InterfaceListPlace => list_place(rng, LISTS[1]),
        Rule::StagePortsPlace => list_place(rng, LISTS[2]),
        Rule::StageDeclarationsPlace => list_place(rng, LISTS[3]),
        Rule::StageStepsPlace => list_place(rng, LISTS[4]),
        Rule::StepPortsPlace => list_place(rng, LISTS[5]),
        Rule::LayerListPast => list_past(rng, LISTS[0]),
        Rule::InterfaceListPast => list_past(rng, LISTS[1]),
        Rule::StagePortsPast => list_past(rng, LISTS[2]),
        Rule::StageDeclarationsPast => list_past(rng, LISTS[3]),
        Rule::StageStepsPast => list_past(rng, LISTS[4]),
        Rule::StepPortsPast => list_past(rng, LISTS[5]),
        Rule::StageDataPast => data_past(rng),
        Rule::StepTag if rng.chance(20) => unowned_tag(rng),
        Rule::UnownedRef | Rule::UnownedStep | Rule::UnownedPort => unowned(rule, rng),
        Rule::PortType | Rule::PortKind | Rule::PortB => port_fault(rule, rng),
        Rule::LocalType | Rule::LocalFlags | Rule::TypeUpright | Rule::TypeInverted => {
            small_record_fault(rule, rng)
        }
        Rule::LayerParent | Rule::LayerListStage => layer_record_fault(rule, rng),
        Rule::InterfaceKind
        | Rule::InterfaceKey
        | Rule::InterfaceListCount
        | Rule::InterfaceListStage
        | Rule::InterfaceListLocal => interface_record_fault(rule, rng),
        Rule::StageInterface
        | Rule::StageLayer
        | Rule::StageHeader
        | Rule::StagePortsCount
        | Rule::StageDeclarationsLocal
        | Rule::StageTransfer
        | Rule::StageData
        | Rule::StageDataAlone => stage_record_fault(rule, rng),
        _ => step_record_fault(rule, rng),
    }
}

/// A first field off the running place, also where the list is empty.
fn list_place(rng: &mut Rng, (owner, field, _): (usize, usize, usize)) -> (Vec<u8>, usize) {
    let (image, number) = find(rng, |image, rng| some(rng, image.counts()[owner], |_| true));
    let mut bytes = image.encode();
    let place = Layout::of(&bytes).at(owner, number);
    let first = get16(&bytes, place + field);
    let other = match rng.below(3) {
        0 => first.wrapping_add(1),
        1 => first.wrapping_sub(1),
        _ => first ^ not_zero(rng),
    };
    put16(&mut bytes, place + field, other);
    (bytes, place)
}

/// A list running past its section: by its count, or because the section ends within it.
fn list_past(rng: &mut Rng, (owner, field, entries): (usize, usize, usize)) -> (Vec<u8>, usize) {
    loop {
        let mut bytes = any_valid(rng).encode();
        let layout = Layout::of(&bytes);
        let count_of = |n: usize| get16(&bytes, layout.at(owner, n) + field + 2) as usize;
        let Some(number) = some(rng, layout.counts[owner], |n| count_of(n) > 0) else { continue };
        let place = layout.at(owner, number);
        let (first, count) = (get16(&bytes, place + field) as usize, count_of(number));
        // A count that the tag would refuse as well would not show the rule alone.
        let free = owner != STEPS && (owner, field) != (STAGES, 13) && owner != INTERFACES;
        if free && rng.chance(50) {
            let past = layout.counts[entries] - first + 1;
            let count = if rng.chance(60) { past } else { rng.between(past, NONE as usize) };
            put16(&mut bytes, place + field + 2, count as u16);
        } else {
            cut(&mut bytes, entries, rng.between(first, first + count - 1));
        }
        return (bytes, place);
    }
}

/// The header's ports fit and the data port does not.
fn data_past(rng: &mut Rng) -> (Vec<u8>, usize) {
    let (image, number) =
        find(rng, |image, rng| some(rng, image.stages.len(), |n| image.stages[n].data.is_some()));
    let mut bytes = image.encode();
    let place = Layout::of(&bytes).at(STAGES, number);
    let end = get16(&bytes, place + 13) + get16(&bytes, place + 15);
    cut(&mut bytes, PORTS, end as usize);
    (bytes, place)
}

const NIL_PORT: [u8; 9] = [0; 9];

/// Good entries after the last list.
fn unowned(rule: Rule, rng: &mut Rng) -> (Vec<u8>, usize) {
    let (image, ()) = find(rng, |image, _| (!image.types.is_empty()).then_some(()));
    let mut bytes = image.encode();
    for _ in 0..rng.between(1, 2) {
        match rule {
            Rule::UnownedRef => append(&mut bytes, REFS, &rng.pick(&[0, 1, NONE]).to_le_bytes()),
            Rule::UnownedStep => append_step(rng, &mut bytes),
            _ => append(&mut bytes, PORTS, &NIL_PORT),
        }
    }
    let end = bytes.len();
    (bytes, end)
}

/// A step that no stage lists; its own port counts in the running place all the same.
fn append_step(rng: &mut Rng, bytes: &mut Vec<u8>) {
    let first = (Layout::of(bytes).counts[PORTS] as u16).to_le_bytes();
    let ported = rng.chance(50);
    let tag = if ported { tag::CONST } else { tag::TRANSFER };
    append(bytes, STEPS, &[tag, 0, 0, 0, 0, 0, 0, first[0], first[1], ported as u8, 0]);
    if ported {
        append(bytes, PORTS, &NIL_PORT);
    }
}

/// A step that no stage lists is judged by its own rule too.
fn unowned_tag(rng: &mut Rng) -> (Vec<u8>, usize) {
    let (image, ()) = find(rng, |image, _| (!image.types.is_empty()).then_some(()));
    let mut bytes = image.encode();
    append_step(rng, &mut bytes);
    let place = Layout::of(&bytes).at(STEPS, image.counts()[STEPS]);
    bytes[place] = byte_from(rng, 21);
    (bytes, place)
}

fn port_fault(rule: Rule, rng: &mut Rng) -> (Vec<u8>, usize) {
    let (image, ()) = find(rng, |image, _| (image.counts()[PORTS] > 0).then_some(()));
    let mut bytes = image.encode();
    if rng.chance(20) {
        // A port that nobody owns is judged by its own rule too.
        append(&mut bytes, PORTS, &NIL_PORT);
    }
    let layout = Layout::of(&bytes);
    let place = layout.at(PORTS, rng.below(layout.counts[PORTS]));
    match rule {
        Rule::PortType => put16(&mut bytes, place, no_type(rng, layout.counts[TYPES])),
        Rule::PortKind => bytes[place + 2] = byte_from(rng, 8),
        _ => {
            if bytes[place + 2] == port::WIRE {
                bytes[place + 2] = rng.pick(&[port::NIL, port::NAT, port::ERROR]);
            }
            put16(&mut bytes, place + 7, not_zero(rng));
        }
    }
    (bytes, place)
}

fn small_record_fault(rule: Rule, rng: &mut Rng) -> (Vec<u8>, usize) {
    let section = if matches!(rule, Rule::LocalType | Rule::LocalFlags) { LOCALS } else { TYPES };
    let (image, number) = find(rng, |image, rng| some(rng, image.counts()[section], |_| true));
    let mut bytes = image.encode();
    let place = Layout::of(&bytes).at(section, number);
    match rule {
        Rule::LocalType => put16(&mut bytes, place + 4, no_type(rng, image.types.len())),
        Rule::LocalFlags => bytes[place + 6] = byte_from(rng, 16),
        Rule::TypeUpright => bytes[place] = byte_from(rng, 16),
        _ => bytes[place + 1] = byte_from(rng, 16),
    }
    (bytes, place)
}

fn layer_record_fault(rule: Rule, rng: &mut Rng) -> (Vec<u8>, usize) {
    let (mut image, number) = find(rng, |image, rng| {
        some(rng, image.layers.len(), |n| rule == Rule::LayerParent || !image.layers[n].stages.is_empty())
    });
    let (layers, stages) = (image.layers.len(), image.stages.len());
    let layer = &mut image.layers[number];
    if rule == Rule::LayerParent {
        layer.parent = no_record(rng, layers, false);
    } else {
        let at = rng.below(layer.stages.len());
        layer.stages[at] = no_record(rng, stages, true);
    }
    placed(image, LAYERS, number)
}

fn placed(image: Image, section: usize, number: usize) -> (Vec<u8>, usize) {
    let bytes = image.encode();
    let place = Layout::of(&bytes).at(section, number);
    (bytes, place)
}

fn interface_record_fault(rule: Rule, rng: &mut Rng) -> (Vec<u8>, usize) {
    let suits = |i: &Interface| match rule {
        Rule::InterfaceKey => i.kind != kind::MATCH,
        Rule::InterfaceListCount => [kind::UNCONDITIONAL, kind::BRANCH, kind::CLOSURE].contains(&i.kind),
        Rule::InterfaceListStage => i.kind != kind::INSPECT && !i.list.is_empty(),
        Rule::InterfaceListLocal => i.kind == kind::INSPECT && !i.list.is_empty(),
        _ => true,
    };
    let (mut image, number) =
        find(rng, |image, rng| some(rng, image.interfaces.len(), |n| suits(&image.interfaces[n])));
    let (stages, locals) = (image.stages.len(), image.locals.len());
    let interface = &mut image.interfaces[number];
    match rule {
        Rule::InterfaceKind => interface.kind = byte_from(rng, 5),
        Rule::InterfaceKey => interface.key = not_zero(rng),
        Rule::InterfaceListCount if rng.chance(50) => {
            interface.list.pop();
        }
        Rule::InterfaceListCount => interface.list.push(interface.list[0]),
        Rule::InterfaceListLocal => {
            let at = rng.below(interface.list.len());
            interface.list[at] = no_record(rng, locals, true);
        }
        _ => {
            let at = rng.below(interface.list.len());
            let none_is_bad = interface.kind != kind::CLOSURE || at == 0;
            interface.list[at] = no_record(rng, stages, none_is_bad);
        }
    }
    placed(image, INTERFACES, number)
}

fn stage_record_fault(rule: Rule, rng: &mut Rng) -> (Vec<u8>, usize) {
    let suits = |image: &Image, s: &Stage| match rule {
        Rule::StageDeclarationsLocal => !s.declarations.is_empty(),
        Rule::StageData => s.transfer != NONE,
        Rule::StageDataAlone => !image.types.is_empty(),
        _ => true,
    };
    let (mut image, number) =
        find(rng, |image, rng| some(rng, image.stages.len(), |n| suits(image, &image.stages[n])));
    let counts = image.counts();
    let stage = &mut image.stages[number];
    match rule {
        Rule::StageInterface => stage.interface = no_record(rng, counts[INTERFACES], true),
        Rule::StageLayer => stage.layer = no_record(rng, counts[LAYERS], false),
        Rule::StageHeader => stage.header = byte_from(rng, 8),
        Rule::StagePortsCount => {
            let refuses = |tag: usize| !within(HEADER_PORTS[tag], stage.ports.len());
            stage.header = some(rng, 8, refuses).expect("no count suits every header") as u8;
        }
        Rule::StageDeclarationsLocal => {
            let at = rng.below(stage.declarations.len());
            stage.declarations[at] = no_record(rng, counts[LOCALS], true);
        }
        Rule::StageTransfer => stage.transfer = no_record(rng, counts[INTERFACES], false),
        Rule::StageDataAlone => {
            stage.transfer = NONE;
            stage.data = Some(Port::default());
        }
        _ => {}
    }
    let (mut bytes, place) = placed(image, STAGES, number);
    if rule == Rule::StageData {
        bytes[place + 29] = byte_from(rng, 2);
    }
    (bytes, place)
}

fn step_record_fault(rule: Rule, rng: &mut Rng) -> (Vec<u8>, usize) {
    if rule == Rule::DivergeTarget && rng.chance(25) {
        return diverge_without_layers(rng);
    }
    let suits = |image: &Image, s: &Step| match rule {
        Rule::InvokeLocal => s.tag <= tag::READ_WRITE,
        Rule::TransferA | Rule::TransferInterface => s.tag == tag::TRANSFER,
        Rule::DivergeTarget | Rule::DivergeInterface => s.tag == tag::DIVERGE,
        Rule::DivergeDataAlone => s.tag == tag::DIVERGE && !image.types.is_empty(),
        Rule::OtherB => s.tag >= tag::LINK,
        Rule::StepPortsCount => !image.types.is_empty(),
        _ => true,
    };
    let (mut image, (stage, at)) = find(rng, |image, rng| some_step(image, rng, |s| suits(image, s)));
    let counts = image.counts();
    let number = steps_before(&image, stage) + at;
    let step = &mut image.stages[stage].steps[at];
    match rule {
        Rule::StepTag => step.tag = byte_from(rng, 21),
        Rule::StepPortsCount => {
            let bounds = STEP_PORTS[step.tag as usize];
            let count = some(rng, 6, |count| !within(bounds, count)).expect("every step has a bound");
            step.ports.resize(count, Port::default());
        }
        Rule::InvokeLocal => step.b = no_record(rng, counts[LOCALS], true),
        Rule::TransferA => step.a = 1 << rng.below(32),
        Rule::TransferInterface => step.b = no_record(rng, counts[INTERFACES], true),
        Rule::DivergeTarget => step.a = no_target(rng, counts[LAYERS], step.a),
        Rule::DivergeInterface => step.b = no_record(rng, counts[INTERFACES], false),
        Rule::DivergeDataAlone => (step.b, step.ports) = (NONE, vec![Port::default()]),
        _ => step.b = not_zero(rng),
    }
    placed(image, STEPS, number)
}

/// A number that names no layer, some of them with the low half of a good one.
fn no_target(rng: &mut Rng, layers: usize, good: u32) -> u32 {
    match rng.below(4) {
        0 => layers as u32,
        1 => NONE as u32,
        2 => good + (1 << rng.between(16, 31)),
        _ => rng.between(layers, u32::MAX as usize) as u32,
    }
}

/// Without layers, no target exists.
fn diverge_without_layers(rng: &mut Rng) -> (Vec<u8>, usize) {
    let (mut image, stage) =
        find(
            rng,
            |image, rng| {
                if image.layers.is_empty() { some(rng, image.stages.len(), |_| true) } else { None }
            },
        );
    let steps = &mut image.stages[stage].steps;
    let at = rng.between(0, steps.len());
    steps.insert(at, Step { tag: tag::DIVERGE, a: 0, b: rng.pick(&[0, NONE]), ports: vec![] });
    let number = steps_before(&image, stage) + at;
    placed(image, STEPS, number)
}
