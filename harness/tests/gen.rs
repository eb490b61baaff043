//! The generator: valid by construction, each fault where it was planted, every code and every rule met.

use std::collections::{BTreeMap, BTreeSet};

use harness::check::{FLAT, LAYERED, Rule, check, explain};
use harness::generate::{Family, Layout, breakable, fault, image, normalised_counts};
use harness::image::{
    FORK, HEADER, INV, Image, LARGEST, MAXIMA, NONE, SELF_INVERSE, Stage, Step, kind, port, tag,
};

fn accepted(family: Family, kind: u32, seeds: u64) {
    for seed in 0..seeds {
        let bytes = image(family, seed);
        let (answer, rule) = explain(&bytes);
        assert_eq!((answer.code, answer.kind), (0, kind), "{family:?} {seed}: {rule:?}");
        assert_eq!(Image::decode(&bytes).encode(), bytes, "{family:?} {seed}");
    }
}

#[test]
fn valid_by_construction() {
    accepted(Family::FlatSmall, FLAT, 20_000);
    accepted(Family::LayeredSmall, LAYERED, 20_000);
    accepted(Family::FlatAimed, FLAT, 10_000);
    accepted(Family::LayeredAimed, LAYERED, 10_000);
    accepted(Family::FlatHeavy, FLAT, 300);
    accepted(Family::FlatLarge, FLAT, 1_000);
    accepted(Family::LayeredLarge, LAYERED, 1_000);
    accepted(Family::Excess, LAYERED, 1_000);
}

#[test]
fn the_same_bytes_for_a_seed() {
    for family in Family::ALL {
        for seed in 0..20 {
            assert_eq!(image(family, seed), image(family, seed), "{family:?} {seed}");
        }
    }
}

#[test]
fn a_planted_fault_is_the_one_found() {
    for rule in breakable() {
        for seed in 0..300 {
            let planted = fault(rule, seed);
            let (answer, found) = explain(&planted.bytes);
            assert_eq!(found, Some(rule), "seed {seed}");
            assert_eq!(answer.place as usize, planted.place, "{rule:?}, seed {seed}");
        }
    }
}

#[test]
fn every_code_and_every_rule_come_up() {
    let mut codes = BTreeMap::new();
    let mut rules = BTreeMap::new();
    for family in Family::ALL {
        for seed in 0..1_000 {
            let (answer, rule) = explain(&image(family, seed));
            *codes.entry((family as u32, answer.code)).or_insert(0u32) += 1;
            if let Some(rule) = rule {
                *rules.entry(rule).or_insert(0u32) += 1;
            }
        }
    }
    for ((family, code), count) in &codes {
        println!("{:?}: code {code}: {count}", Family::ALL[*family as usize]);
    }
    for (rule, count) in &rules {
        println!("{rule:?}: {count}");
    }
    let missing: Vec<Rule> = breakable().filter(|rule| !rules.contains_key(rule)).collect();
    assert!(missing.is_empty(), "never broken: {missing:?}");
    for code in 2..=8 {
        assert!(codes.keys().any(|&(_, met)| met == code), "code {code} never came up");
    }
}

#[test]
fn excess_goes_over_and_just_not() {
    let (mut over, mut brim, mut far) = ([0; 8], [0; 8], 0);
    for seed in 0..2_000 {
        let counts = normalised_counts(&Image::decode(&image(Family::Excess, seed)));
        for section in 0..8 {
            over[section] += u32::from(counts[section] > MAXIMA[section]);
            brim[section] += u32::from(counts[section] == MAXIMA[section]);
        }
        assert!(counts.iter().zip(MAXIMA).any(|(&count, max)| count >= max), "{seed}: {counts:?}");
        far += u32::from(counts[3] > 1_000_000);
    }
    println!("over {over:?}, at the maximum {brim:?}, over a million locals {far}");
    for section in [1, 2, 3, 5, 6, 7] {
        assert!(over[section] > 0 && brim[section] > 0, "section {section}");
    }
    assert!(far > 0);
}

#[test]
fn boundaries_come_up() {
    let mut met = BTreeSet::new();
    let mut lengths = BTreeSet::new();
    for seed in 0..2_000 {
        let bytes = image(Family::Boundary, seed);
        lengths.insert(bytes.len());
        if bytes.len() >= HEADER {
            met.extend(Layout::of(&bytes).counts.into_iter().enumerate());
        }
    }
    for (section, max) in MAXIMA.into_iter().enumerate() {
        for count in [0, 1, max - 1, max, max + 1] {
            assert!(met.contains(&(section, count)), "section {section} with {count} records");
        }
    }
    for length in [0, HEADER - 1, HEADER, LARGEST - 1, LARGEST, LARGEST + 1] {
        assert!(lengths.contains(&length), "{length} bytes");
    }
}

#[test]
fn damage_is_judged_without_a_panic() {
    let mut accepted = 0;
    for seed in 0..20_000 {
        accepted += u32::from(check(&image(Family::Damaged, seed)).code == 0);
    }
    println!("damaged and yet accepted: {accepted}");
    assert!(accepted > 0 && accepted < 20_000);
}

/// The interfaces that a walk along Transfer steps from interface 0 meets.
fn reached(image: &Image) -> BTreeSet<u16> {
    let mut met = BTreeSet::from([0]);
    let mut waiting = vec![0];
    while let Some(interface) = waiting.pop() {
        for target in stages_of(image, interface).flat_map(targets) {
            if met.insert(target) {
                waiting.push(target);
            }
        }
    }
    met
}

fn stages_of(image: &Image, interface: u16) -> impl Iterator<Item = &Stage> {
    let interface = &image.interfaces[interface as usize];
    let list = if interface.kind == kind::INSPECT { &[][..] } else { &interface.list[..] };
    list.iter().filter(|&&stage| stage != NONE).map(|&stage| &image.stages[stage as usize])
}

fn targets(stage: &Stage) -> impl Iterator<Item = u16> {
    stage.steps.iter().filter(|step| step.tag == tag::TRANSFER).map(|step| step.b)
}

fn steps(image: &Image) -> impl Iterator<Item = (&Stage, &Step)> {
    image.stages.iter().flat_map(|stage| stage.steps.iter().map(move |step| (stage, step)))
}

/// How far out a Diverge jumps: 0 is its own layer.
fn levels_out(image: &Image, stage: &Stage, step: &Step) -> usize {
    let (mut layer, mut levels) = (stage.layer, 0);
    while layer as u32 != step.a {
        layer = image.layers[layer as usize].parent;
        levels += 1;
    }
    levels
}

/// The numbers of the wires in a stage's ports, in order.
fn wires<'a>(stage: &'a Stage, steps: &'a [Step]) -> impl Iterator<Item = u16> + 'a {
    let ports = stage.ports.iter().chain(steps.iter().flat_map(|step| &step.ports));
    ports.filter(|port| port.kind == port::WIRE).map(|port| port.b)
}

fn most_uses(stage: &Stage) -> usize {
    let mut uses = BTreeMap::new();
    for wire in wires(stage, &stage.steps) {
        *uses.entry(wire).or_insert(0) += 1;
    }
    uses.values().copied().max().unwrap_or(0)
}

/// Whether a wire is open once the step was taken.
fn half_built(stage: &Stage, step: &Step) -> bool {
    let taken =
        stage.steps.iter().position(|other| std::ptr::eq(other, step)).expect("the stage's own step") + 1;
    let mut open = BTreeSet::new();
    for wire in wires(stage, &stage.steps[..taken]) {
        if !open.remove(&wire) {
            open.insert(wire);
        }
    }
    !open.is_empty()
}

fn depth(image: &Image) -> usize {
    let depth_of = |mut layer: u16| {
        let mut depth = 1;
        while image.layers[layer as usize].parent != NONE {
            layer = image.layers[layer as usize].parent;
            depth += 1;
        }
        depth
    };
    (0..image.layers.len() as u16).map(depth_of).max().unwrap_or(0)
}

fn parent_of(image: &Image, interface: u16) -> u16 {
    image.layers[image.interfaces[interface as usize].layer as usize].parent
}

type Shape = (&'static str, fn(&Image) -> bool);

fn inspects(image: &Image, met: bool) -> bool {
    let reached = reached(image);
    let inspect =
        |n: usize| image.interfaces[n].kind == kind::INSPECT && reached.contains(&(n as u16)) == met;
    let strict = |&l: &u16| image.locals[l as usize].flags & (FORK | SELF_INVERSE) == 0;
    let declared =
        image.stages.iter().filter(|s| reached.contains(&s.interface)).flat_map(|s| &s.declarations);
    (0..image.interfaces.len()).any(inspect) && declared.into_iter().any(strict)
}

fn declared_with(image: &Image, flags: u8) -> bool {
    image
        .stages
        .iter()
        .flat_map(|s| &s.declarations)
        .any(|&l| image.locals[l as usize].flags & flags == flags)
}

fn repeated<T: Ord>(items: impl Iterator<Item = T>) -> bool {
    let mut met = BTreeSet::new();
    !items.into_iter().all(|item| met.insert(item))
}

/// What a flat image should have in one case or another.
const FLAT_SHAPES: [Shape; 15] = [
    ("a reached Inspect beside a local without fork", |i| inspects(i, true)),
    ("an unreached Inspect beside a local without fork", |i| inspects(i, false)),
    ("an inverse local declared", |i| declared_with(i, INV)),
    ("a self-inverse local declared", |i| declared_with(i, SELF_INVERSE)),
    ("a local declared twice in one stage", |i| i.stages.iter().any(|s| repeated(s.declarations.iter()))),
    ("a local declared in several stages", |i| {
        let once = |s: &Stage| s.declarations.iter().copied().collect::<BTreeSet<_>>();
        repeated(i.stages.iter().flat_map(once))
    }),
    ("a loop that never ends", |i| {
        let all_loop =
            |n: u16| stages_of(i, n).next().is_some() && stages_of(i, n).all(|s| targets(s).any(|t| t == n));
        reached(i).into_iter().any(all_loop)
    }),
    ("an unreached interface with stages", |i| {
        let reached = reached(i);
        i.stages.iter().any(|s| !reached.contains(&s.interface))
    }),
    ("all of several interfaces reached", |i| {
        i.interfaces.len() > 3 && reached(i).len() == i.interfaces.len()
    }),
    ("a Branch on one stage", |i| {
        i.interfaces.iter().any(|i| i.kind == kind::BRANCH && i.list[0] == i.list[1])
    }),
    ("a Match with repeats", |i| {
        i.interfaces.iter().any(|i| i.kind == kind::MATCH && repeated(i.list.iter()))
    }),
    ("a Closure with missing entries", |i| {
        i.interfaces.iter().any(|i| i.kind == kind::CLOSURE && i.list.contains(&NONE))
    }),
    ("an empty Match", |i| i.interfaces.iter().any(|i| i.kind == kind::MATCH && i.list.is_empty())),
    ("interface 0 an Inspect", |i| i.interfaces[0].kind == kind::INSPECT),
    ("interface 0 an empty Match", |i| {
        i.interfaces[0].kind == kind::MATCH && i.interfaces[0].list.is_empty()
    }),
];

/// What a layered image should have in one case or another.
const LAYERED_SHAPES: [Shape; 16] = [
    ("a jump two layers out with a value half built", |i| {
        let jump = |(stage, step): (&Stage, &Step)| {
            step.tag == tag::DIVERGE && levels_out(i, stage, step) >= 2 && half_built(stage, step)
        };
        steps(i).any(jump)
    }),
    ("a value half built where a layer that jumps past this one is entered", |i| {
        let jumps = |layer: u16| {
            let out = |(stage, step): (&Stage, &Step)| {
                stage.layer == layer && step.tag == tag::DIVERGE && levels_out(i, stage, step) >= 2
            };
            steps(i).any(out)
        };
        steps(i).any(|(stage, step)| {
            step.tag == tag::TRANSFER
                && parent_of(i, step.b) != NONE
                && half_built(stage, step)
                && jumps(i.interfaces[step.b as usize].layer)
        })
    }),
    ("a Diverge without interface", |i| steps(i).any(|(_, s)| s.tag == tag::DIVERGE && s.b == NONE)),
    ("a Diverge with interface and data", |i| {
        steps(i).any(|(_, s)| s.tag == tag::DIVERGE && !s.ports.is_empty())
    }),
    ("a Diverge to the own layer", |i| {
        steps(i).any(|(stage, s)| s.tag == tag::DIVERGE && s.a == stage.layer as u32)
    }),
    ("a stage transfer with data", |i| i.stages.iter().any(|s| s.data.is_some())),
    ("a stage transfer to the own interface", |i| i.stages.iter().any(|s| s.transfer == s.interface)),
    ("three layers deep", |i| depth(i) >= 3),
    ("five layers deep", |i| depth(i) >= 5),
    ("several root layers", |i| i.layers.iter().filter(|l| l.parent == NONE).count() > 1),
    ("a Transfer into a root from an inner layer", |i| {
        let inner = |s: &Stage| i.layers[s.layer as usize].parent != NONE;
        steps(i).any(|(stage, s)| s.tag == tag::TRANSFER && parent_of(i, s.b) == NONE && inner(stage))
    }),
    ("a Transfer into the own layer", |i| {
        let own = |stage: &Stage, s: &Step| i.interfaces[s.b as usize].layer == stage.layer;
        steps(i).any(|(stage, s)| s.tag == tag::TRANSFER && own(stage, s))
    }),
    ("an interface whose layer is not its stage's", |i| {
        i.stages.iter().any(|s| i.interfaces[s.interface as usize].layer != s.layer)
    }),
    ("a wire that occurs once", |i| i.stages.iter().any(|s| most_uses(s) == 1)),
    ("a wire that occurs three times", |i| i.stages.iter().any(|s| most_uses(s) >= 3)),
    ("a layer without stages", |i| i.layers.iter().any(|l| l.stages.is_empty())),
];

#[test]
fn shapes_that_nobody_writes_come_up() {
    let mut rare = Vec::new();
    let wanted = [
        (Family::FlatSmall, &FLAT_SHAPES[..]),
        (Family::FlatAimed, &FLAT_SHAPES[..3]),
        (Family::LayeredSmall, &LAYERED_SHAPES[..]),
        (Family::LayeredAimed, &LAYERED_SHAPES[..2]),
    ];
    for (family, shapes) in wanted {
        let images: Vec<Image> = (0..4_000).map(|seed| Image::decode(&image(family, seed))).collect();
        for (name, has) in shapes {
            let count = images.iter().filter(|image| has(image)).count();
            println!("{family:?}: {name}: {count}");
            if count < 80 {
                rare.push(name);
            }
        }
    }
    assert!(rare.is_empty(), "under 2 in 100: {rare:?}");
}
