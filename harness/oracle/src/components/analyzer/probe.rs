//! The analyzer run in the open: its own methods in its own order, with a look at its state between them.
//!
//! One thing differs from `analyze`: locals are processed in number order and not in a hash map's.

use std::{collections::BTreeMap, collections::HashMap, mem::take};

use vine_util::idx::{IdxVec, IntMap};

use super::{Analyzer, Effect, EffectVar};
use crate::structures::{
    ast::Span,
    chart::Chart,
    diag::{Diag, Diags},
    tir::Local,
    types::Inverted,
    vir::{InterfaceId, Invocation, StageId, Vir},
};

/// The effects in the order of their numbers 0 to 10.
pub const EFFECTS: [Effect; 11] = [
    Effect::Pass,
    Effect::Barrier,
    Effect::PassBarrier,
    Effect::ReadPass,
    Effect::ReadBarrier,
    Effect::ReadPassBarrier,
    Effect::BarrierWrite,
    Effect::PassBarrierWrite,
    Effect::ReadBarrierWrite,
    Effect::ReadPassBarrierWrite,
    Effect::Never,
];

/// What `build` made, and how each processed local came out. Variables are numbers.
#[derive(Debug, Clone)]
pub struct Run {
    pub variables: usize,
    /// The three inputs and the output of each relation.
    pub relations: Vec<[usize; 4]>,
    /// The variable of each segment.
    pub segments: Vec<usize>,
    /// The stage, its connected and its disconnected variable.
    pub disconnects: Vec<(usize, usize, usize)>,
    pub processed: Vec<Processed>,
}

#[derive(Debug, Clone)]
pub struct Processed {
    pub local: usize,
    pub inverse: bool,
    /// The effects right after `fill_segments`.
    pub seeds: Vec<Effect>,
    /// The effects at the fixed point.
    pub effects: Vec<Effect>,
    pub diags: Vec<Diag>,
}

/// What `Analyzer::analyze` does, one method at a time.
pub fn run(span: Span, vir: &mut Vir) -> Run {
    let (chart, mut diags) = (Chart::default(), Diags::default());
    let mut analyzer = start(&chart, &mut diags, span, vir);
    analyzer.sweep(InterfaceId(0));
    let root_segment = (analyzer.get_transfer(InterfaceId(0)).1, HashMap::default());
    analyzer.segments.push(root_segment);
    analyzer.build();
    let declarations = BTreeMap::from_iter(take(&mut analyzer.local_declarations));
    let processed =
        declarations.into_iter().filter_map(|(l, stages)| process_local(&mut analyzer, l, stages));
    Run {
        processed: processed.collect(),
        variables: analyzer.effects.len(),
        relations: analyzer.relations.values().map(|&(a, b, c, out)| [a.0, b.0, c.0, out.0]).collect(),
        segments: analyzer.segments.iter().map(|(var, _)| var.0).collect(),
        disconnects: analyzer.disconnects.iter().map(|&(s, c, d)| (s.0, c.0, d.0)).collect(),
    }
}

/// The value that `analyze` starts from.
fn start<'a>(chart: &'a Chart, diags: &'a mut Diags, span: Span, vir: &'a mut Vir) -> Analyzer<'a> {
    Analyzer {
        chart,
        diags,
        infinite_loop: false,
        span,
        locals: &vir.locals,
        stages: &vir.stages,
        interfaces: &mut vir.interfaces,
        types: &vir.types,
        effects: IdxVec::from([Effect::Pass]),
        dependent: IdxVec::from([Vec::new()]),
        relations: IdxVec::new(),
        segments: Vec::new(),
        is_dirty: IdxVec::from([false]),
        dirty: Vec::new(),
        local_declarations: IntMap::default(),
        disconnects: Vec::new(),
    }
}

/// What `Analyzer::process_local` does; nothing for a self-inverse local.
fn process_local(analyzer: &mut Analyzer<'_>, local: Local, declared: Vec<StageId>) -> Option<Processed> {
    let info = &analyzer.locals[local];
    if info.self_inverse {
        return None;
    }
    analyzer.fill_segments(local, declared);
    let seeds = analyzer.effects.vec.clone();
    analyzer.fixed_point(info.inv);
    analyzer.set_wires(local, info.inv, info.fork.is_some());
    analyzer.report_errors(local, info);
    let effects = analyzer.effects.vec.clone();
    let diags = take(&mut analyzer.diags.diags);
    Some(Processed { local: local.0, inverse: info.inv.0, seeds, effects, diags })
}

/// `set_wires` alone for local 0, with these effects inside and outside of interface 0: whether InfiniteLoop is said. The wire
/// is the `Vir`'s.
pub fn set_wires(vir: &mut Vir, interior: Effect, exterior: Effect) -> bool {
    let interface = &mut vir.interfaces[InterfaceId(0)];
    interface.incoming = 1;
    (interface.interior, interface.exterior) = (Some(EffectVar(1)), Some(EffectVar(2)));
    let (chart, mut diags) = (Chart::default(), Diags::default());
    let mut analyzer = start(&chart, &mut diags, Span::NONE, vir);
    analyzer.effects = IdxVec::from([Effect::Pass, interior, exterior]);
    let info = &analyzer.locals[Local(0)];
    analyzer.set_wires(Local(0), info.inv, info.fork.is_some());
    analyzer.infinite_loop
}

/// `report_errors` alone for local 0, with the wires and the incoming of the `Vir`.
pub fn report_errors(vir: &mut Vir) -> Vec<Diag> {
    let (chart, mut diags) = (Chart::default(), Diags::default());
    let mut analyzer = start(&chart, &mut diags, Span::NONE, vir);
    let info = &analyzer.locals[Local(0)];
    analyzer.report_errors(Local(0), info);
    diags.diags
}

/// `Invocation::effect`, which is private to the analyzer.
pub fn invocation_effect(invocation: &Invocation, inv: bool, fork: bool) -> Effect {
    invocation.effect(Inverted(inv), fork)
}
