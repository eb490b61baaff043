//! The harness's check against document 01: its examples, the order of refusals, each place where words decide.

use harness::check::{Answer, FLAT, LAYERED, Room, Rule, check, explain, for_analyse, for_normalise};
use harness::generate::{
    Family, Layout, Rng, byte_changes, exhaustive_records, exhaustive_small, field_changes, image, largest,
    section,
};
use harness::image::{
    HEADER, INVERSE, Image, Interface, LARGEST, Layer, Local, MAXIMA, NONE, Port, Stage, Step, Type, kind,
    tag,
};

/// Document 01's first example, byte by byte: interface 0 on stage 0, local 0 declared there; Barrier, Read (span 9).
#[rustfmt::skip]
const EXAMPLE: [u8; 104] = [
    b'V', b'I', b'R', 1, 0,
    0, 0, 1, 0, 1, 0, 1, 0, 1, 0, 2, 0, 1, 0, 2, 0,
    // interface
    255, 255, 0, 0, 0, 0, 0, 1, 0,
    // stage
    0, 0, 0, 0, 0, 0, 255, 255, 0, 0, 0, 0, 0, 0, 0, 0, 0, 1, 0, 1, 0, 0, 0, 2, 0, 0, 0, 255, 255, 0,
    // local, type
    0, 0, 0, 0, 0, 0, 6,
    0, 0,
    // steps
    0, 0, 0, 0, 0, 0, 0, 0, 0, 0, 0,
    1, 9, 0, 0, 0, 0, 0, 0, 0, 1, 0,
    // port, refs
    0, 0, 0, 0, 0, 0, 0, 0, 0,
    0, 0, 0, 0,
];

/// The example as a value.
fn example() -> Image {
    Image {
        layers: vec![],
        interfaces: vec![Interface { layer: NONE, kind: kind::UNCONDITIONAL, key: 0, list: vec![0] }],
        stages: vec![Stage {
            layer: NONE,
            declarations: vec![0],
            steps: vec![
                Step { tag: tag::BARRIER, a: 0, b: 0, ports: vec![] },
                Step { tag: tag::READ, a: 9, b: 0, ports: vec![Port::default()] },
            ],
            transfer: NONE,
            ..Stage::default()
        }],
        locals: vec![Local { span: 0, ty: 0, flags: 6 }],
        types: vec![Type::default()],
    }
}

/// Document 01's layered example with a second layer: stage 0 enters layer 1, whose stage jumps out of both.
fn layered() -> Image {
    let mut image = example();
    image.layers = vec![Layer { parent: NONE, stages: vec![0] }, Layer { parent: 0, stages: vec![1] }];
    image.interfaces[0].layer = 0;
    image.interfaces.push(Interface { layer: 1, kind: kind::UNCONDITIONAL, key: 0, list: vec![1] });
    image.stages[0].layer = 0;
    image.stages[0].steps.push(Step { tag: tag::TRANSFER, a: 0, b: 1, ports: vec![] });
    let jump = Step { tag: tag::DIVERGE, a: 0, b: NONE, ports: vec![] };
    image.stages.push(Stage { interface: 1, layer: 1, steps: vec![jump], transfer: 1, ..Stage::default() });
    image
}

fn refused(image: &[u8], code: u32, place: usize) {
    assert_eq!(check(image), Answer { code, place: place as u32, kind: 0 }, "{:?}", explain(image).1);
}

fn accepted(image: &[u8], kind: u32) {
    assert_eq!(check(image), Answer { code: 0, place: 0, kind }, "{:?}", explain(image).1);
}

fn at(image: &[u8], section: usize, number: usize) -> usize {
    Layout::of(image).at(section, number)
}

#[test]
fn examples_of_document_01() {
    assert_eq!(example().encode(), EXAMPLE);
    accepted(&EXAMPLE, FLAT);
    accepted(&layered().encode(), LAYERED);
    refused(&EXAMPLE[..20], 2, 0);
    let mut empty = EXAMPLE[..HEADER].to_vec();
    empty[5..].fill(0);
    refused(&empty, 4, 0);
    refused(&[], 2, 0);
}

#[test]
fn refusals_in_order() {
    // Each image also breaks every rule that comes later.
    refused(b"VAR", 2, 0);
    refused(&[255; 21], 3, 0);
    refused(&[255; 100_000], 3, 0);
    let mut bytes = [255; 21];
    bytes[..3].copy_from_slice(b"VIR");
    refused(&bytes, 3, 0);
    bytes[3..5].copy_from_slice(&[1, 0]);
    refused(&bytes, 4, 0);
    let mut bytes = EXAMPLE.to_vec();
    bytes[HEADER + 2] = 9;
    bytes.push(0);
    refused(&bytes, 5, 0);
    bytes.pop();
    refused(&bytes, 6, HEADER);
}

#[test]
fn each_count_at_its_maximum_and_past_it() {
    for section in 0..8 {
        let mut bytes = EXAMPLE.to_vec();
        let mut set = |count: usize| {
            bytes[5 + 2 * section..7 + 2 * section].copy_from_slice(&(count as u16).to_le_bytes());
            check(&bytes).code
        };
        assert_eq!(set(MAXIMA[section]), 5, "section {section}");
        assert_eq!(set(MAXIMA[section] + 1), 4, "section {section}");
        assert_eq!(set(65_535), 4, "section {section}");
    }
}

#[test]
fn the_largest_image() {
    for seed in 0..5 {
        let image = largest(&mut Rng::new(seed), true);
        assert_eq!(image.counts(), MAXIMA);
        let mut bytes = image.encode();
        assert_eq!(bytes.len(), LARGEST);
        accepted(&bytes, LAYERED);
        bytes.push(0);
        refused(&bytes, 5, 0);
    }
}

#[test]
fn the_first_fault_in_file_order_decides() {
    let mut bytes = EXAMPLE.to_vec();
    let faults = [
        (section::PORTS, 0, 2, 8),
        (section::STEPS, 1, 0, 21),
        (section::STEPS, 0, 0, 21),
        (section::TYPES, 0, 1, 16),
        (section::LOCALS, 0, 6, 16),
        (section::STAGES, 0, 8, 8),
        (section::INTERFACES, 0, 2, 5),
    ];
    // Planted from the back, so each new one comes before all the others.
    for (section, number, field, value) in faults {
        let place = at(&bytes, section, number);
        bytes[place + field] = value;
        refused(&bytes, 6, place);
    }
}

#[test]
fn a_list_is_its_owners_fault() {
    let mut image = example();
    image.interfaces[0].list[0] = 1;
    refused(&image.encode(), 6, HEADER);
    let mut image = example();
    image.stages[0].declarations[0] = 1;
    refused(&image.encode(), 6, HEADER + 9);
    let mut image = layered();
    image.layers[1].stages[0] = 2;
    refused(&image.encode(), 6, HEADER + 6);
}

#[test]
fn first_is_the_running_place_also_of_an_empty_list() {
    let mut bytes = EXAMPLE.to_vec();
    let stage = at(&bytes, section::STAGES, 0);
    bytes[stage + 13] = 1;
    refused(&bytes, 6, stage);
    let mut bytes = EXAMPLE.to_vec();
    let barrier = at(&bytes, section::STEPS, 0);
    bytes[barrier + 7] = 1;
    refused(&bytes, 6, barrier);
}

/// The example with one entry more in a list section.
fn with_entry(section: usize, record: &[u8]) -> Vec<u8> {
    let mut bytes = EXAMPLE.to_vec();
    let end = at(&bytes, section, Layout::of(&bytes).counts[section]);
    bytes.splice(end..end, record.iter().copied());
    bytes[5 + 2 * section] += 1;
    bytes
}

#[test]
fn unowned_entries() {
    let barrier = [0, 0, 0, 0, 0, 0, 0, 1, 0, 0, 0];
    for (section, record) in
        [(section::STEPS, &barrier[..]), (section::PORTS, &[0; 9]), (section::REFS, &[255, 255])]
    {
        let bytes = with_entry(section, record);
        refused(&bytes, 6, bytes.len());
    }
    // Still judged by its own rules, its port list by the running place.
    let bytes = with_entry(section::STEPS, &[0; 11]);
    refused(&bytes, 6, at(&bytes, section::STEPS, 2));
    let bytes = with_entry(section::PORTS, &[0, 0, 9, 0, 0, 0, 0, 0, 0]);
    refused(&bytes, 6, at(&bytes, section::PORTS, 1));
}

#[test]
fn types_take_bit_15_off() {
    let mut image = example();
    image.locals[0].ty = INVERSE;
    image.stages[0].steps[1].ports[0].ty = INVERSE;
    accepted(&image.encode(), FLAT);
    image.locals[0].ty = INVERSE | 1;
    let bytes = image.encode();
    refused(&bytes, 6, at(&bytes, section::LOCALS, 0));
}

#[test]
fn a_closure_needs_its_first_entry() {
    let mut image = example();
    image.interfaces[0].kind = kind::CLOSURE;
    image.interfaces[0].list = vec![0, NONE, NONE];
    accepted(&image.encode(), FLAT);
    image.interfaces[0].list = vec![NONE, 0, 0];
    refused(&image.encode(), 6, HEADER);
}

#[test]
fn an_interface_may_list_its_stage_again() {
    let mut image = example();
    image.interfaces[0].kind = kind::BRANCH;
    image.interfaces[0].list = vec![0, 0];
    accepted(&image.encode(), FLAT);
    // No other interface may.
    image.interfaces.push(Interface { layer: NONE, kind: kind::MATCH, key: 3, list: vec![0] });
    refused(&image.encode(), 7, 0);
    image.interfaces[1].list.clear();
    accepted(&image.encode(), FLAT);
}

#[test]
fn a_flat_image_ignores_interface_layers_and_has_no_others() {
    let mut image = example();
    image.interfaces[0].layer = 7;
    accepted(&image.encode(), FLAT);
    image.stages[0].transfer = 0;
    refused(&image.encode(), 7, 0);
    image.stages[0].transfer = NONE;
    image.stages[0].layer = 0;
    refused(&image.encode(), 6, HEADER + 9);
    image.stages[0].layer = NONE;
    image.stages[0].steps[0] = Step { tag: tag::DIVERGE, a: 0, b: 0, ports: vec![] };
    let bytes = image.encode();
    refused(&bytes, 6, at(&bytes, section::STEPS, 0));
}

#[test]
fn parents_and_targets() {
    let mut image = layered();
    image.layers[1].parent = 2;
    refused(&image.encode(), 6, HEADER + 6);
    image.layers[1].parent = 1;
    refused(&image.encode(), 8, 0);
    let mut image = layered();
    image.stages[1].steps[0].a = 65_536;
    let bytes = image.encode();
    refused(&bytes, 6, at(&bytes, section::STEPS, 3));
    image.stages[1].steps[0].a = 1;
    accepted(&image.encode(), LAYERED);
    image.stages[0].steps[0] = Step { tag: tag::DIVERGE, a: 1, b: NONE, ports: vec![] };
    refused(&image.encode(), 8, 0);
}

#[test]
fn layers_and_their_stages() {
    let mut image = layered();
    image.stages[1].layer = NONE;
    refused(&image.encode(), 8, 0);
    image.layers[1].stages.clear();
    refused(&image.encode(), 8, 0);
    let mut image = layered();
    image.interfaces[1].layer = NONE;
    refused(&image.encode(), 8, 0);
    // The layer of an interface need not be that of its stages.
    let mut image = layered();
    image.stages[1].layer = 0;
    image.layers = vec![Layer { parent: NONE, stages: vec![1, 0] }, Layer { parent: 0, stages: vec![] }];
    accepted(&image.encode(), LAYERED);
}

#[test]
fn only_transfer_steps_enter() {
    let mut image = layered();
    let again = image.stages[0].steps[2].clone();
    image.stages[0].steps.push(again);
    assert_eq!(explain(&image.encode()).1, Some(Rule::LayerEntered));
    // A stage's own transfer and a Diverge's interface neither count nor are restricted.
    let mut image = layered();
    image.stages[0].transfer = 1;
    image.stages[1].steps[0].b = 1;
    accepted(&image.encode(), LAYERED);
    // Into a root layer from anywhere, its own stages included.
    for stage in 0..2 {
        image.stages[stage].steps.push(Step { tag: tag::TRANSFER, a: 0, b: 0, ports: vec![] });
    }
    accepted(&image.encode(), LAYERED);
    image.stages[1].steps.push(Step { tag: tag::TRANSFER, a: 0, b: 1, ports: vec![] });
    assert_eq!(explain(&image.encode()).1, Some(Rule::TransferFromParent));
}

#[test]
fn the_calls_refuse_in_order() {
    let room = Room { output: LARGEST, work: true };
    let code = |answer: Answer| answer.code;
    let layered_bytes = layered().encode();
    assert_eq!(code(for_normalise(&layered_bytes, room)), 0);
    assert_eq!(code(for_analyse(&EXAMPLE, room)), 0);
    assert_eq!(code(for_normalise(&EXAMPLE, room)), 7);
    assert_eq!(code(for_analyse(&layered_bytes, room)), 7);
    for room in [Room { output: LARGEST - 1, ..room }, Room { work: false, ..room }] {
        assert_eq!(code(for_normalise(&[], room)), 1);
        assert_eq!(code(for_analyse(&EXAMPLE, room)), 1);
    }
    let mut broken = layered();
    broken.interfaces[0].layer = NONE;
    assert_eq!(code(for_normalise(&broken.encode(), room)), 8);
    assert_eq!(code(for_analyse(&broken.encode(), room)), 7);
    broken.stages[1].interface = 2;
    let bytes = broken.encode();
    assert_eq!(for_analyse(&bytes, room), check(&bytes));
}

/// What holds of every answer.
fn well_formed(image: &[u8]) -> Answer {
    let answer = check(image);
    assert!([0, 2, 3, 4, 5, 6, 7, 8].contains(&answer.code));
    assert_eq!(answer.kind == 0, answer.code != 0);
    assert!(answer.place == 0 || answer.code == 6);
    if answer.code == 6 {
        let (place, layout) = (answer.place as usize, Layout::of(image));
        let starts = |s: usize| (0..layout.counts[s]).any(|n| layout.at(s, n) == place);
        assert!(place == image.len() || (0..7).any(starts), "no record starts at {place}");
    }
    answer
}

#[test]
fn every_change_of_a_byte_or_a_field_is_answered() {
    let mut images = vec![EXAMPLE.to_vec(), layered().encode()];
    images.extend((0..3).map(|seed| image(Family::FlatSmall, seed)));
    images.extend((0..3).map(|seed| image(Family::LayeredSmall, seed)));
    let mut codes = [0u32; 9];
    for image in images {
        for changed in byte_changes(&image).chain(field_changes(&image)) {
            codes[well_formed(&changed).code as usize] += 1;
        }
        for length in 0..image.len() {
            codes[well_formed(&image[..length]).code as usize] += 1;
        }
    }
    println!("answers by code: {codes:?}");
    assert!((0..9).all(|code| code == 1 || codes[code] > 0));
}

#[test]
fn every_image_of_a_few_records_is_answered() {
    let mut codes = [0u32; 9];
    let mut images = 0;
    for bytes in exhaustive_records() {
        codes[well_formed(&bytes).code as usize] += 1;
        images += 1;
    }
    println!("{images} images, answers by code: {codes:?}");
    assert_eq!(images, 2_006_334);
    assert!([0, 6, 7, 8].iter().all(|&code: &usize| codes[code] > 0));
}

#[test]
fn every_small_image_is_accepted() {
    let (mut flat, mut layered) = (0, 0);
    for image in exhaustive_small() {
        let kind = if image.layers.is_empty() { FLAT } else { LAYERED };
        accepted(&image.encode(), kind);
        if kind == FLAT { flat += 1 } else { layered += 1 }
    }
    println!("{flat} flat, {layered} layered");
    assert_eq!((flat, layered), (497_184, 53_676));
}
