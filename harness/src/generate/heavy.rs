//! Flat images at the limits of the report: incoming past 16 bits, very many diagnostics, very many relations; and the
//! same shapes light.

use super::{
    bytes::section::*,
    parts::{flat, flat_stage, flat_steps, interface},
    rng::Rng,
};
use crate::image::{DROP, FORK, INV, Image, Interface, MAXIMA, NONE, Step, kind, tag};

pub(super) fn heavy(rng: &mut Rng) -> Image {
    // Few enough that the toolchain can compute the report.
    let light = rng.chance(25);
    match rng.below(3) {
        0 => many_incoming(rng, light),
        1 => many_diagnostics(rng, light),
        _ => many_relations(rng, light),
    }
}

/// Interface 0 lists stage 0 many times, and each time it is swept its Transfers count again.
fn many_incoming(rng: &mut Rng, light: bool) -> Image {
    let (entries, transfers) = if light {
        (rng.pick(&[3, 15, 16, 17]), rng.pick(&[5, 16, 17, 20]))
    } else {
        (rng.pick(&[64, 255, 256, 2000]), rng.pick(&[256, 257, 1024, 2040]))
    };
    let list = vec![0; entries];
    let interfaces = vec![
        Interface { layer: NONE, kind: kind::MATCH, key: 1, list },
        interface(kind::UNCONDITIONAL, &[1]),
    ];
    let transfer = Step { tag: tag::TRANSFER, a: 0, b: 1, ports: vec![] };
    let first = flat_stage(0, true, vec![transfer; transfers]);
    let letters = (0..rng.below(6)).map(|_| rng.below(6)).collect();
    let second = flat_stage(1, false, flat_steps(letters, 20));
    flat(rng.below(8), interfaces, vec![first, second])
}

/// One stage that invokes its one local over and over: Writes that nothing reads, or anything.
fn many_diagnostics(rng: &mut Rng, light: bool) -> Image {
    let steps = match () {
        _ if light => rng.between(10, 25),
        _ if rng.chance(60) => rng.between(1020, 1030),
        _ => MAXIMA[STEPS],
    };
    let any = rng.chance(40);
    let invoke = |rng: &mut Rng| if any { rng.below(5) } else { tag::WRITE as usize };
    let letters = (0..steps).map(|_| invoke(rng)).collect();
    let stage = flat_stage(0, true, flat_steps(letters, 10));
    let flags = rng.pick(&[0, 0, FORK, DROP, INV]) as usize;
    flat(flags, vec![interface(kind::UNCONDITIONAL, &[0])], vec![stage])
}

/// Every stage declares and transfers as often as steps allow, each interface reached from the one before.
fn many_relations(rng: &mut Rng, light: bool) -> Image {
    let (count, steps) = if light {
        (rng.between(3, 8), rng.between(2, 8))
    } else {
        (MAXIMA[STAGES], MAXIMA[STEPS] / MAXIMA[STAGES])
    };
    let invokes = rng.pick(&[0, 0, 20, 50]);
    let interfaces = (0..count as u16).map(|n| interface(kind::UNCONDITIONAL, &[n])).collect();
    let back = rng.pick(&[0, 10, 100]);
    let mut stages = Vec::new();
    for number in 0..count {
        let letter = |rng: &mut Rng| match () {
            _ if rng.chance(invokes) => rng.below(6),
            _ if rng.chance(back) => 6 + rng.below(count),
            _ => 6 + rng.between(number, count - 1),
        };
        let mut letters: Vec<usize> = (0..steps).map(|_| letter(rng)).collect();
        letters[0] = 6 + (number + 1).min(count - 1);
        stages.push(flat_stage(number as u16, true, flat_steps(letters, 10)));
    }
    flat(rng.below(8), interfaces, stages)
}
