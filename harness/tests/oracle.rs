//! Vine's own files asked directly: document 01's examples and slips, and what the bridge promises.

#[macro_use]
mod common;

/// Small images by hand.
#[cfg(feature = "oracle")]
mod small {
    pub use harness::{
        bridge::{self, Effect, Normalised},
        check::{FLAT, LAYERED, check},
        image::*,
        report::{Diagnostic, Report, Triple, diagnostic::*},
        worklist::solve,
    };

    pub const NIL: Port = Port { ty: 0, kind: port::NIL, a: 0, b: 0 };

    pub fn wire(ty: u16, span: u32, wire: u16) -> Port {
        Port { ty, kind: port::WIRE, a: span, b: wire }
    }

    /// An invocation of local 0.
    pub fn invoke(tag: u8, span: u32) -> Step {
        let ports = [0, 1, 1, 1, 1, 2][tag as usize];
        Step { tag, a: span, b: 0, ports: vec![NIL; ports] }
    }

    pub fn transfer(interface: u16) -> Step {
        Step { tag: tag::TRANSFER, a: 0, b: interface, ports: vec![] }
    }

    pub fn diverge(target: u32, interface: u16) -> Step {
        Step { tag: tag::DIVERGE, a: target, b: interface, ports: vec![] }
    }

    pub fn link(key: u32) -> Step {
        Step { tag: tag::LINK, a: key, b: 0, ports: vec![NIL, NIL] }
    }

    pub fn unconditional(layer: u16, stage: u16) -> Interface {
        Interface { layer, kind: kind::UNCONDITIONAL, key: 0, list: vec![stage] }
    }

    /// A Bare stage without declarations and without a transfer.
    pub fn stage(interface: u16, layer: u16, steps: Vec<Step>) -> Stage {
        Stage { interface, layer, steps, transfer: NONE, ..Stage::default() }
    }

    /// Stage 0 declares the one local; each stage has an Unconditional interface of its own number.
    pub fn flat(flags: u8, stages: Vec<Vec<Step>>) -> Image {
        let count = stages.len() as u16;
        let mut image = Image {
            interfaces: (0..count).map(|n| unconditional(NONE, n)).collect(),
            stages: stages.into_iter().zip(0..).map(|(steps, n)| stage(n, NONE, steps)).collect(),
            locals: vec![Local { span: 77, ty: 0, flags }],
            types: vec![Type::default()],
            ..Image::default()
        };
        image.stages[0].declarations.push(0);
        image
    }

    pub fn with_inspect(mut image: Image) -> Image {
        image.interfaces.push(Interface { layer: NONE, kind: kind::INSPECT, key: 0, list: vec![] });
        image
    }

    pub fn wire_at_1(image: &Image) -> Option<Triple> {
        reported(image, 0).wires[1][0]
    }

    pub fn kinds_and_spans(image: &Image) -> Vec<(u8, u32)> {
        reported(image, 0).diagnostics.iter().map(|d| (d.kind, d.span)).collect()
    }

    pub fn reported(image: &Image, span: u32) -> Report {
        assert_eq!(check(&image.encode()).kind, FLAT, "an accepted flat image");
        bridge::report(image, span)
    }

    pub fn answer(image: &Image) -> Normalised {
        assert_eq!(check(&image.encode()).kind, LAYERED, "an accepted layered image");
        bridge::normalise(image)
    }

    pub fn normalised(image: &Image) -> Image {
        match answer(image) {
            Normalised::Flat(image) => image,
            Normalised::Excess => panic!("the result is over a maximum"),
        }
    }

    /// Document 01's example of 38 bytes, with the steps given.
    pub fn example(steps: Vec<Step>) -> Image {
        flat(FORK | DROP, vec![steps])
    }

    pub const EXAMPLE: [u8; 38] = [
        0x56, 0x41, 0x52, 1, 0, 1, 0, 1, 0, 1, 7, 0, 0, 0, 13, 0, 0, 0, 1, 0, 0, 0, 1, 0, 1, 0, 0, 0, 0, 3,
        9, 0, 0, 0, 0, 0, 0, 0,
    ];

    /// Every tag, kind of interface, header and kind of port, with different keys; layered if there is a layer.
    pub fn everything(layer: u16) -> Image {
        let layered = layer != NONE;
        let mut next = 0u32;
        let mut ports = |count: usize| -> Vec<Port> {
            let port = |_| {
                next += 1;
                let (kind, inverse) = ((next % 8) as u8, if next.is_multiple_of(3) { INVERSE } else { 0 });
                let b = if kind == port::WIRE { next as u16 } else { 0 };
                Port { ty: (next as u16 % 4) | inverse, kind, a: 1000 + next, b }
            };
            (0..count).map(port).collect()
        };
        let headers = [0, 1, 3, 1, 2, 2, 0, 4];
        let owners = [0, 1, 1, 2, 2, 3, 3, 0];
        let mut stages: Vec<Stage> = (0..8)
            .map(|n| Stage {
                span: 50 + n as u32,
                interface: owners[n],
                layer,
                header: n as u8,
                key: 0xdead_0000 + n as u32,
                ports: ports(headers[n]),
                declarations: vec![n as u16 % 2, 0],
                steps: vec![],
                wires: 9 * n as u16,
                transfer: NONE,
                data: None,
            })
            .collect();
        let counts = [0, 1, 1, 1, 1, 2, 1, 0, 2, 3, 1, 2, 2, 2, 2, 3, 1, 3, 2, 2, 3];
        for (tag, count) in (0..).zip(counts) {
            let (a, b) = match tag {
                0..tag::TRANSFER => (300 + tag as u32, tag as u16 % 2),
                tag::TRANSFER => (0, 2),
                tag::DIVERGE if !layered => continue,
                tag::DIVERGE => (0, NONE),
                _ => (0xbeef_0000 + tag as u32, 0),
            };
            stages[tag as usize % 5].steps.push(Step { tag, a, b, ports: ports(count) });
        }
        if layered {
            stages[6].steps.push(Step { tag: tag::DIVERGE, a: 0, b: 1, ports: ports(1) });
            stages[5].transfer = 3;
            stages[6].transfer = 2;
            stages[6].data = ports(1).pop();
        }
        let interface = |kind, key, list: &[u16]| Interface { layer, kind, key, list: list.to_vec() };
        Image {
            layers: if layered {
                vec![Layer { parent: NONE, stages: vec![3, 1, 0, 2, 7, 6, 5, 4] }]
            } else {
                vec![]
            },
            interfaces: vec![
                interface(kind::MATCH, 999, &[0, 7, 0]),
                interface(kind::BRANCH, 0, &[1, 2]),
                interface(kind::CLOSURE, 0, &[3, NONE, 4]),
                interface(kind::BRANCH, 0, &[6, 5]),
                interface(kind::INSPECT, 0, &[1, 1, 0]),
            ],
            stages,
            locals: vec![
                Local { span: 1, ty: 3 | INVERSE, flags: INV | DROP },
                Local { span: 2, ty: 1, flags: FORK | SELF_INVERSE },
            ],
            types: (0..4).map(|n| Type { upright: n, inverted: 15 - n }).collect(),
        }
    }
}
#[cfg(feature = "oracle")]
use small::*;

live!(effects, {
    use bridge::{EFFECTS, Effect::*};
    assert_eq!(Barrier.union(BarrierWrite), Barrier);
    assert_eq!(Barrier.join(BarrierWrite), BarrierWrite);
    assert_eq!(BarrierWrite.join(Barrier), Barrier);
    assert_eq!(PassBarrierWrite.join(PassBarrier), PassBarrier);
    assert_eq!(Barrier.join(PassBarrierWrite), Barrier);
    assert_eq!(ReadPass.union(BarrierWrite), ReadPassBarrierWrite);
    assert_eq!(Never.union(ReadBarrier), ReadBarrier);
    assert_eq!(Never.join(ReadBarrier), Never);
    assert_eq!(Pass.join(Never), Never);
    assert!(EFFECTS.iter().zip(0..).all(|(&effect, n)| effect as u8 == n));
});

live!(invocations, {
    let effects = |inverse, fork| [0, 1, 2, 3, 4, 5].map(|tag| bridge::invocation_effect(tag, inverse, fork));
    use Effect::{
        Barrier as B, BarrierWrite as BW, ReadBarrier as RB, ReadBarrierWrite as RBW, ReadPass as RP,
    };
    assert_eq!(effects(false, true), [B, RP, BW, RB, BW, RBW]);
    assert_eq!(effects(false, false), [B, RB, BW, RB, BW, RBW]);
    assert_eq!(effects(true, true), [B, BW, RP, BW, RB, RBW]);
    assert_eq!(effects(true, false), [B, BW, RB, BW, RB, RBW]);
});

live!(a_read_behind_a_barrier, {
    let image = example(vec![invoke(tag::BARRIER, 4), invoke(tag::READ, 9)]);
    let analysis = bridge::analyse(&image, 0);
    assert_eq!((analysis.variables, analysis.relations.len()), (8, 5));
    let report = reported(&image, 0);
    assert_eq!(report.encode(), EXAMPLE);
    assert_eq!(Report::decode(&EXAMPLE), Some(report));
});

live!(a_read_without_a_barrier, {
    let report = reported(&example(vec![invoke(tag::READ, 9)]), 0);
    assert_eq!((report.verdict, report.total, report.diagnostics), (0, 0, vec![]));
});

live!(an_infinite_loop, {
    let report = reported(&flat(FORK | DROP, vec![vec![transfer(1)], vec![transfer(1)]]), 1234);
    assert_eq!(report.incoming, [1, 2]);
    assert_eq!(report.diagnostics, [Diagnostic { kind: INFINITE_LOOP, span: 1234, ty: NONE, local: 0 }]);
});

live!(an_infinite_loop_is_reported_once, {
    let mut image = flat(FORK | DROP, vec![vec![transfer(1)], vec![transfer(1)]]);
    image.locals = vec![image.locals[0]; 3];
    image.stages[0].declarations = vec![2, 1];
    let report = reported(&image, 5);
    assert_eq!(report.diagnostics, [Diagnostic { kind: INFINITE_LOOP, span: 5, ty: NONE, local: 1 }]);
});

live!(a_diverge_becomes_nothing, {
    let mut image = Image {
        layers: vec![Layer { parent: NONE, stages: vec![0] }],
        interfaces: vec![unconditional(0, 0)],
        stages: vec![stage(0, 0, vec![diverge(0, NONE)])],
        ..Image::default()
    };
    image.stages[0].transfer = 0;
    let expected = Image {
        interfaces: vec![unconditional(0, 0), unconditional(NONE, 1)],
        stages: vec![stage(0, NONE, vec![]), stage(1, NONE, vec![transfer(0)])],
        ..Image::default()
    };
    assert_eq!(normalised(&image), expected);
});

live!(a_split_at_the_maximum_of_stages, {
    let image = |count: u16| Image {
        layers: vec![Layer { parent: NONE, stages: (0..count).collect() }],
        interfaces: vec![Interface { layer: 0, kind: kind::MATCH, key: 0, list: (0..count).collect() }],
        stages: (0..count).map(|n| stage(0, 0, if n == 7 { vec![diverge(0, 0)] } else { vec![] })).collect(),
        ..Image::default()
    };
    assert_eq!(answer(&image(256)), Normalised::Excess);
    assert_eq!(normalised(&image(255)).stages.len(), 256);
});

live!(millions_of_new_locals_are_refused_at_once, {
    let mut image = Image {
        layers: vec![Layer { parent: NONE, stages: vec![0] }],
        interfaces: vec![unconditional(0, 0)],
        stages: vec![stage(0, 0, vec![diverge(0, NONE); 2048])],
        types: vec![Type::default()],
        ..Image::default()
    };
    image.stages[0].header = header::ENTRY;
    image.stages[0].ports = (0..2560).map(|n| wire(0, 0, n)).collect();
    assert_eq!(answer(&image), Normalised::Excess);
});

live!(open_wires_become_locals, {
    let mut image = Image {
        layers: vec![Layer { parent: NONE, stages: vec![0] }],
        interfaces: vec![unconditional(0, 0)],
        stages: vec![stage(0, 0, vec![link(6), diverge(0, 0), link(7)])],
        locals: vec![Local { span: 8, ty: 1, flags: FORK }],
        types: vec![Type { upright: INV, inverted: DROP }, Type { upright: FORK, inverted: SELF_INVERSE }],
    };
    let source = &mut image.stages[0];
    (source.span, source.wires, source.header, source.key) = (31, 40, header::ENTRY, 70);
    source.ports = vec![wire(1, 11, 9), wire(INVERSE, 12, 4), wire(0, 13, 5)];
    source.steps[0].ports = vec![wire(0, 14, 5), Port { a: 99, ..NIL }];
    // The Diverge's own port is counted before the test, so wire 6 is open at the split.
    source.steps[1].ports = vec![wire(1 | INVERSE, 15, 6)];

    let flat = normalised(&image);
    let new = |span, ty, flags| Local { span, ty, flags };
    assert_eq!(flat.locals[1..], [new(12, 0, INV), new(15, 1, FORK), new(11, 1 | INVERSE, SELF_INVERSE)]);
    let invoke = |tag, a, b, port| Step { tag, a, b, ports: vec![port] };
    let old = Stage {
        layer: NONE,
        declarations: vec![1, 2, 3],
        steps: vec![
            image.stages[0].steps[0].clone(),
            invoke(tag::BARRIER_WRITE, 12, 1, wire(0, 12, 4)),
            invoke(tag::BARRIER_WRITE, 15, 2, wire(1, 15, 6)),
            invoke(tag::BARRIER_WRITE, 11, 3, wire(1 | INVERSE, 11, 9)),
            Step { ports: vec![wire(1 | INVERSE, 15, 6)], ..transfer(0) },
        ],
        ..image.stages[0].clone()
    };
    let steps = vec![
        invoke(tag::READ_BARRIER, 12, 1, wire(INVERSE, 12, 4)),
        invoke(tag::READ_BARRIER, 15, 2, wire(1 | INVERSE, 15, 6)),
        invoke(tag::READ_BARRIER, 11, 3, wire(1, 11, 9)),
        link(7),
    ];
    assert_eq!(flat.stages, [old, Stage { span: 31, wires: 40, ..stage(1, NONE, steps) }]);
});

live!(a_jump_two_layers_out, {
    let step_into = |interface: u16| vec![link(u32::from(interface)), transfer(interface)];
    let layer = |parent, stage| Layer { parent, stages: vec![stage] };
    let image = Image {
        layers: vec![layer(NONE, 0), layer(0, 1), layer(1, 2)],
        interfaces: (0..3).map(|n| unconditional(n, n)).collect(),
        stages: vec![
            stage(0, 0, step_into(1)),
            stage(1, 1, step_into(2)),
            stage(2, 2, vec![diverge(1, NONE), diverge(0, NONE)]),
        ],
        types: vec![Type::default()],
        ..Image::default()
    };
    let flat = normalised(&image);
    let steps: Vec<_> = flat.stages.into_iter().map(|stage| stage.steps).collect();
    // Each piece that follows a split has an interface of its own number. Stage 2's first Diverge goes to what
    // follows layer 1, which is stage 3; its second has nowhere to go.
    let expected =
        [step_into(1), step_into(2), vec![transfer(3)], vec![], vec![transfer(3)], vec![], vec![transfer(4)]];
    assert_eq!(steps, expected);
});

live!(a_transfer_that_does_not_split, {
    // Layer 1 jumps nowhere but to itself, so entering it does not split stage 0.
    let image = Image {
        layers: vec![Layer { parent: NONE, stages: vec![0] }, Layer { parent: 0, stages: vec![1] }],
        interfaces: vec![unconditional(0, 0), unconditional(1, 1)],
        stages: vec![stage(0, 0, vec![transfer(1)]), stage(1, 1, vec![diverge(1, 1)])],
        ..Image::default()
    };
    let flat = normalised(&image);
    assert_eq!(flat.stages.len(), 3);
    assert_eq!([&flat.stages[0].steps, &flat.stages[1].steps], [&[transfer(1)], &[transfer(1)]]);
});

live!(the_worklist_keeps_repeats, {
    // Taking 1 hands the relation out twice, taking 0 once more.
    let solution = solve(&[[1, 1, 0, 2]], &[Effect::Pass, Effect::BarrierWrite, Effect::Never], false);
    assert_eq!((solution.taken, solution.evaluations), (vec![1, 1, 1], 3));
});

live!(the_worklist_takes_a_variable_again_that_rose_while_it_waited, {
    // Taking 2 raises 3 to RP and then, before 3 is taken, to RPBW.
    let seeds = [Effect::Pass, Effect::BarrierWrite, Effect::ReadPass, Effect::Never];
    let solution = solve(&[[2, 0, 0, 3], [2, 1, 0, 3]], &seeds, false);
    assert_eq!((solution.taken, solution.evaluations), (vec![1, 1, 1, 2], 6));
});

live!(the_worklist_takes_the_highest_seed_first, {
    // 2 is taken before 1 raises it, so that it and 3 are taken twice; the other way round 3 is taken once.
    let seeds = [Effect::Pass, Effect::ReadPass, Effect::BarrierWrite, Effect::Never];
    let solution = solve(&[[1, 0, 0, 2], [2, 0, 0, 3]], &seeds, false);
    assert_eq!((solution.taken, solution.evaluations), (vec![1, 1, 2, 2], 7));
});

live!(image_to_vir_and_back, {
    for (image, kind) in [(everything(0), LAYERED), (everything(NONE), FLAT)] {
        assert_eq!(check(&image.encode()).kind, kind);
        assert_eq!(Image::decode(&image.encode()), image);
        let (vir, notes) = bridge::to_vir(&image);
        assert_eq!(bridge::from_vir(&vir, &notes), image);
    }
});

live!(what_a_vir_cannot_hold_survives_normalising, {
    let mut image = everything(0);
    for stage in &mut image.stages {
        stage.steps.retain(|step| step.tag != tag::DIVERGE);
    }
    // Nothing splits, so only layers and stage transfers change.
    let mut expected = image.clone();
    expected.layers.clear();
    for stage in &mut expected.stages {
        stage.layer = NONE;
        if stage.transfer != NONE {
            let ports = stage.data.take().into_iter().collect();
            stage.steps.push(Step { ports, ..transfer(stage.transfer) });
            stage.transfer = NONE;
        }
    }
    assert_eq!(normalised(&image), expected);
});

live!(strict_reads_beside_any_inspect, {
    let image =
        |flags| flat(flags, vec![vec![invoke(tag::WRITE, 1), transfer(1)], vec![invoke(tag::READ, 2)]]);
    assert_eq!(wire_at_1(&image(DROP)), Some((true, false, false)));
    let unreached = with_inspect(image(DROP));
    assert_eq!(wire_at_1(&unreached), Some((true, true, false)));
    let mut reached = unreached;
    reached.stages[1].steps.push(transfer(2));
    assert_eq!(wire_at_1(&reached), Some((true, true, false)));
    assert_eq!(wire_at_1(&with_inspect(image(FORK | DROP))), Some((true, false, false)));
});

live!(loose_reads_in_diagnostics, {
    let image = flat(DROP, vec![vec![invoke(tag::WRITE, 1), invoke(tag::READ, 2), invoke(tag::READ, 3)]]);
    let expected = [(CANNOT_FORK, 2), (VALUE_LATER_USED_HERE, 3)];
    assert_eq!(kinds_and_spans(&image), expected);
    // A strict read would end the value at its barrier: UninitializedVariable at 3, and no CannotFork.
    assert_eq!(kinds_and_spans(&with_inspect(image)), expected);
});

live!(an_inverse_local_turns_the_join_in_a_segment, {
    let inner = vec![invoke(tag::WRITE, 1), invoke(tag::READ, 2)];
    let image = flat(INV | FORK | DROP, vec![vec![transfer(1), invoke(tag::READ, 3)], inner]);
    // BW.join(RP) = BW inside; unturned it would be RBW and take an input.
    assert_eq!(wire_at_1(&image), Some((false, true, false)));
});

live!(an_inverse_local_turns_the_join_in_a_relation, {
    let outer = vec![invoke(tag::WRITE, 1), transfer(1), invoke(tag::READ, 2)];
    let image = flat(INV | FORK | DROP, vec![outer, vec![invoke(tag::READ, 3)]]);
    // RP.join(BW) = RBW outside reads the output; unturned it would be BW and read nothing.
    assert_eq!(wire_at_1(&image), Some((true, true, false)));
});

live!(an_inverse_local_swaps_the_ends_of_the_triple, {
    let image = |flags, outer, inner| flat(flags, vec![outer, vec![invoke(inner, 1)]]);
    let upright = image(FORK | DROP, vec![invoke(tag::WRITE, 2), transfer(1)], tag::READ);
    let inverse = image(INV | FORK | DROP, vec![transfer(1), invoke(tag::READ, 2)], tag::WRITE);
    assert_eq!(wire_at_1(&upright), Some((true, false, false)));
    assert_eq!(wire_at_1(&inverse), Some((false, false, true)));
});

live!(an_inverse_local_is_the_mirror_of_an_upright_one, {
    let mut image = example(vec![invoke(tag::WRITE, 9), invoke(tag::BARRIER, 4)]);
    image.locals[0].flags |= INV;
    assert_eq!(reported(&image, 0).encode(), EXAMPLE);
});

live!(a_diagnostic_names_the_local_and_its_type, {
    let mut image = example(vec![invoke(tag::BARRIER, 4), invoke(tag::READ, 9)]);
    image.types = vec![Type::default(); 600];
    image.locals.push(Local { ty: 555 | INVERSE, ..image.locals[0] });
    image.stages[0].declarations = vec![1];
    image.stages[0].steps.iter_mut().for_each(|step| step.b = 1);
    let expected = Diagnostic { kind: UNINITIALIZED_VARIABLE, span: 9, ty: 555 | INVERSE, local: 1 };
    assert_eq!(reported(&image, 0).diagnostics, [expected]);
});

live!(the_first_1024_diagnostics_are_kept, {
    let writes = (0..1500).map(|span| invoke(tag::WRITE, span)).collect();
    let report = reported(&flat(FORK, vec![writes]), 0);
    assert_eq!((report.verdict, report.total, report.diagnostics.len()), (1, 1500, 1024));
    // The walk is backward.
    assert_eq!(report.diagnostics[0], Diagnostic { kind: CANNOT_DROP, span: 1499, ty: 0, local: 0 });
});

live!(only_upright_or_inverse_locals_of_reached_stages_are_processed, {
    let processed = |image: &Image| bridge::analyse(image, 0).processed.len();
    let steps = || vec![invoke(tag::BARRIER, 4), invoke(tag::READ, 9)];
    assert_eq!(processed(&flat(0, vec![steps()])), 1);
    assert_eq!(processed(&flat(INV, vec![steps()])), 1);
    assert_eq!(processed(&flat(SELF_INVERSE, vec![steps()])), 0);
    let mut unreached = flat(0, vec![vec![], steps()]);
    unreached.stages[0].declarations.clear();
    unreached.stages[1].declarations = vec![0];
    assert_eq!(processed(&unreached), 0);
    unreached.stages[0].steps = vec![transfer(1)];
    assert_eq!(processed(&unreached), 1);
});

live!(a_stage_listed_twice_is_swept_twice, {
    let mut image = flat(FORK | DROP, vec![vec![transfer(1)], vec![]]);
    image.interfaces[0] = Interface { layer: NONE, kind: kind::MATCH, key: 0, list: vec![0, 0, 0] };
    assert_eq!(reported(&image, 0).incoming, [1, 3]);
});

/// Accepted images from the generator.
#[cfg(feature = "oracle")]
mod generated {
    use harness::generate::{self, Family};

    use crate::small::*;

    /// Where an assertion fails, this tells the image apart.
    pub type Name = (Family, u64);

    pub fn flat() -> impl Iterator<Item = (Name, Image)> {
        of(Family::FlatSmall, 3000).chain(of(Family::FlatLarge, 20))
    }

    pub fn layered() -> impl Iterator<Item = (Name, Image)> {
        of(Family::LayeredSmall, 3000).chain(of(Family::LayeredLarge, 20)).chain(of(Family::Excess, 60))
    }

    fn of(family: Family, count: u64) -> impl Iterator<Item = (Name, Image)> {
        (0..count).map(move |seed| ((family, seed), Image::decode(&generate::image(family, seed))))
    }

    /// Flat images, and layered ones normalised.
    pub fn analysable() -> impl Iterator<Item = (Name, Image)> {
        let normalised = layered().filter_map(|(name, image)| match answer(&image) {
            Normalised::Flat(image) => Some((name, image)),
            Normalised::Excess => None,
        });
        flat().chain(normalised)
    }
}

live!(generated_images_go_to_vir_and_back, {
    for (name, image) in generated::flat().chain(generated::layered()) {
        let (vir, notes) = bridge::to_vir(&image);
        assert_eq!(bridge::from_vir(&vir, &notes), image, "{name:?}");
    }
});

live!(a_normalised_image_is_accepted_as_flat, {
    let mut excess = 0;
    for (name, image) in generated::layered() {
        match answer(&image) {
            Normalised::Flat(flat) => assert_eq!(check(&flat.encode()).kind, FLAT, "{name:?}"),
            Normalised::Excess => excess += 1,
        }
    }
    assert_ne!(excess, 0, "no image is over a maximum");
});

live!(the_probed_run_is_as_analyze, {
    for (name, image) in generated::analysable() {
        assert!(bridge::is_as_analyze(&bridge::analyse(&image, 3), &image, 3), "{name:?}");
    }
});

live!(every_segment_is_a_piece_of_a_stage, {
    for (name, image) in generated::analysable() {
        let analysis = bridge::analyse(&image, 0);
        let inspects = image.interfaces.iter().filter(|i| i.kind == kind::INSPECT).count();
        let pieces: Vec<_> = analysis.pieces.concat().into_iter().filter(|&variable| variable != 0).collect();
        assert_eq!(pieces, analysis.segments[1 + inspects..], "{name:?}");
    }
});

live!(the_worklist_ends_in_the_effects_of_the_rust, {
    for (name, image) in generated::analysable() {
        let analysis = bridge::analyse(&image, 0);
        for local in &analysis.processed {
            let solution = solve(&analysis.relations, &local.seeds, local.inverse);
            assert_eq!(solution.effects, local.effects, "{name:?}");
            assert!(solution.taken.iter().all(|&n| n <= 4), "{name:?}");
        }
    }
});

live!(every_kind_of_diagnostic_comes_up, {
    let mut seen = [0; 6];
    for (name, image) in generated::analysable() {
        let report = reported(&image, 0);
        assert_eq!(Report::decode(&report.encode()).as_ref(), Some(&report), "{name:?}");
        report.diagnostics.iter().for_each(|d| seen[d.kind as usize] += 1);
    }
    assert!(seen[1..].iter().all(|&n| n > 0), "{seen:?}");
});
