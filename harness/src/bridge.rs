//! From an image to the Rust's `Vir` and back, and Vine's own normalizer and analyzer run on an image.
//!
//! All functions take accepted images: behind a check they do not panic.

use std::{
    collections::BTreeMap,
    panic::{AssertUnwindSafe, catch_unwind, resume_unwind},
};

pub use vine::components::analyzer::{effect::Effect, probe::EFFECTS};
use vine::{
    components::{
        analyzer::{self, EffectVar},
        finder::{FinderCache, FlexImpls, NoRoom, TirImpl},
        normalizer::normalize,
    },
    idx::{Counter, IdxVec},
    name::Table,
    nat::Nat,
    net::{FlatNet, Wire},
    structures::{
        ast::Span,
        chart::{Chart, EnumId, UnionId, VariantId},
        diag::{Diag, Diags, ErrorGuaranteed},
        resolutions::{ConstRelId, FnRelId, Fragment, Rels},
        signatures::Signatures,
        tir,
        types::{
            self, Inverted,
            probe::{self, Handle},
        },
        vir::{
            self, InterfaceId, InterfaceKind, Invocation, LayerId, PortKind, StageId, Transfer, Vir, WireId,
        },
    },
};

use crate::{
    image::{
        DROP, FORK, INV, INVERSE, Image, Interface, Layer, Local, MAXIMA, NONE, Port, SELF_INVERSE, Stage,
        Step, Type, header, kind, port, tag,
    },
    report::{Diagnostic, KEPT, Report, Triple, diagnostic},
    worklist,
};

/// What an image carries and a `Vir` has no place for.
#[derive(Clone, Debug, Default)]
pub struct Notes {
    types: Vec<Type>,
    /// The key of each stage's header; new stages have none, which is 0.
    headers: Vec<u32>,
    /// For each port its value and the `a` of its step. A port's number rides in its type's upper bits, and a
    /// step that has a key has a port, so both are found again wherever the normalizer moved them.
    ports: Vec<(u32, u32)>,
}

/// The `Vir` of an image.
pub fn to_vir(image: &Image) -> (Vir, Notes) {
    let mut notes = Notes { types: image.types.clone(), ..Notes::default() };
    let vir = Vir {
        types: probe::variables(image.types.len()),
        locals: image.locals.iter().map(local_to_vir).collect(),
        rels: Rels,
        layers: image.layers.iter().enumerate().map(layer_to_vir).collect(),
        interfaces: image.interfaces.iter().enumerate().map(interface_to_vir).collect(),
        stages: image.stages.iter().enumerate().map(|(n, stage)| notes.stage_to_vir(n, stage)).collect(),
        closures: IdxVec::new(),
    };
    (vir, notes)
}

fn local_to_vir(local: &Local) -> vir::VirLocal {
    let flex = flex(local.flags);
    vir::VirLocal {
        span: Span(local.span),
        ty: type_to_vir(local.ty, None),
        inv: flex.inv,
        fork: flex.fork.map(|_| FnRelId),
        drop: flex.drop.map(|_| FnRelId),
        self_inverse: flex.self_inverse,
    }
}

fn flex(flags: u8) -> FlexImpls {
    FlexImpls {
        inv: Inverted(flags & INV != 0),
        fork: (flags & FORK != 0).then_some(TirImpl),
        drop: (flags & DROP != 0).then_some(TirImpl),
        self_inverse: flags & SELF_INVERSE != 0,
    }
}

fn type_to_vir(ty: u16, port: Option<usize>) -> types::Type {
    probe::type_of(Handle { number: (ty & !INVERSE) as usize, inverse: ty & INVERSE != 0, port })
}

fn layer_id(n: u16) -> LayerId {
    some(n).map_or(LayerId::NONE, LayerId)
}

/// A number that may be none.
fn some(n: u16) -> Option<usize> {
    (n != NONE).then_some(n as usize)
}

fn layer_to_vir((n, layer): (usize, &Layer)) -> vir::Layer {
    vir::Layer { id: LayerId(n), parent: some(layer.parent).map(LayerId), stages: ids(&layer.stages) }
}

fn ids<I: From<usize>>(list: &[u16]) -> Vec<I> {
    list.iter().map(|&n| I::from(n as usize)).collect()
}

fn interface_to_vir((n, interface): (usize, &Interface)) -> vir::Interface {
    let stage = |i: usize| StageId(interface.list[i] as usize);
    let kind = match interface.kind {
        kind::UNCONDITIONAL => InterfaceKind::Unconditional(stage(0)),
        kind::BRANCH => InterfaceKind::Branch(stage(0), stage(1)),
        kind::MATCH => InterfaceKind::Match(EnumId(interface.key as usize), ids(&interface.list)),
        kind::CLOSURE => {
            let [fork, drop] = [1, 2].map(|i| some(interface.list[i]).map(StageId));
            InterfaceKind::Closure { call: stage(0), fork, drop }
        }
        kind::INSPECT => InterfaceKind::Inspect(ids(&interface.list)),
        _ => unreachable!("a checked kind"),
    };
    vir::Interface::new(InterfaceId(n), layer_id(interface.layer), kind)
}

impl Notes {
    fn stage_to_vir(&mut self, n: usize, stage: &Stage) -> vir::Stage {
        self.headers.push(stage.key);
        vir::Stage {
            span: Span(stage.span),
            id: StageId(n),
            interface: InterfaceId(stage.interface as usize),
            layer: layer_id(stage.layer),
            header: self.header_to_vir(stage),
            declarations: ids(&stage.declarations),
            steps: stage.steps.iter().map(|step| self.step_to_vir(step)).collect(),
            transfer: self.transfer_to_vir(stage.transfer, stage.data.as_slice()),
            wires: Counter(WireId(stage.wires as usize)),
        }
    }

    fn header_to_vir(&mut self, stage: &Stage) -> vir::Header {
        let mut ports = self.ports_to_vir(&stage.ports, 0);
        match stage.header {
            header::BARE => vir::Header::Bare,
            header::CONST => vir::Header::Const(last(&mut ports)),
            header::FN => {
                let ret = last(&mut ports);
                vir::Header::Fn(ports, ret)
            }
            header::MATCH => vir::Header::Match(EnumId(0), VariantId(0), last(&mut ports)),
            header::CLOSURE => {
                let ret = last(&mut ports);
                vir::Header::Closure(ports, ret)
            }
            header::FORK => of_two(ports, vir::Header::Fork),
            header::DROP => vir::Header::Drop,
            header::ENTRY => vir::Header::Entry(ports),
            _ => unreachable!("a checked header"),
        }
    }

    fn transfer_to_vir(&mut self, interface: u16, data: &[Port]) -> Option<Transfer> {
        let data = self.ports_to_vir(data, 0).pop();
        some(interface).map(|n| Transfer { interface: InterfaceId(n), data })
    }

    fn step_to_vir(&mut self, step: &Step) -> vir::Step {
        if let tag::TRANSFER | tag::DIVERGE = step.tag {
            let transfer = self.transfer_to_vir(step.b, &step.ports);
            return match step.tag {
                tag::DIVERGE => vir::Step::Diverge(LayerId(step.a as usize), transfer),
                _ => vir::Step::Transfer(transfer.expect("a Transfer names an interface")),
            };
        }
        let ports = self.ports_to_vir(&step.ports, step.a);
        if step.tag < tag::TRANSFER {
            return vir::Step::Invoke(Span(step.a), tir::Local(step.b as usize), invocation(step.tag, ports));
        }
        plain_step(step.tag, ports)
    }

    fn ports_to_vir(&mut self, ports: &[Port], key: u32) -> Vec<vir::Port> {
        ports.iter().map(|port| self.port_to_vir(port, key)).collect()
    }

    fn port_to_vir(&mut self, port: &Port, key: u32) -> vir::Port {
        let number = self.ports.len();
        self.ports.push((port.a, key));
        let kind = match port.kind {
            port::NIL => PortKind::Nil,
            port::BOOL => PortKind::Bool(port.a != 0),
            port::N32 => PortKind::N32(port.a),
            port::F32 => PortKind::F32(f32::from_bits(port.a)),
            port::F64 => PortKind::F64(port.a.into()),
            port::NAT => PortKind::Nat(Nat(port.a)),
            port::WIRE => PortKind::Wire(Span(port.a), WireId(port.b as usize)),
            port::ERROR => PortKind::Error(ErrorGuaranteed::new_unchecked()),
            _ => unreachable!("a checked kind of port"),
        };
        vir::Port { ty: type_to_vir(port.ty, Some(number)), kind }
    }
}

/// `Invocation::effect` for the invocation of a tag, 0 to 5.
pub fn invocation_effect(tag: u8, inverse: bool, fork: bool) -> Effect {
    let ports = if tag == tag::READ_WRITE { 2 } else { 1 };
    let ports = Notes::default().ports_to_vir(&vec![Port::default(); ports], 0);
    analyzer::probe::invocation_effect(&invocation(tag, ports), inverse, fork)
}

/// `set_wires` for a local with these flags: its wire where these effects are inside and outside, and whether InfiniteLoop is
/// said.
pub fn set_wires(flags: u8, interior: Effect, exterior: Effect) -> (Option<Triple>, bool) {
    let image = Image {
        interfaces: vec![Interface { kind: kind::MATCH, ..Interface::default() }],
        locals: vec![Local { flags, ..Local::default() }],
        types: vec![Type::default()],
        ..Image::default()
    };
    let (mut vir, _) = to_vir(&image);
    let said = analyzer::probe::set_wires(&mut vir, interior, exterior);
    (wires(&vir)[0][0], said)
}

/// `report_errors` for local 0 of a flat image, with its wires at the interfaces, all of which are come to.
pub fn report_errors(image: &Image, wires: &[Option<Triple>]) -> Vec<Diagnostic> {
    let (mut vir, _) = to_vir(image);
    for (interface, wire) in vir.interfaces.values_mut().zip(wires) {
        interface.incoming = 1;
        interface.wires.extend(wire.map(|wire| (tir::Local(0), wire)));
    }
    let diags = analyzer::probe::report_errors(&mut vir);
    diags.iter().map(|diag| diagnostic_of(diag, 0)).collect()
}

fn last(ports: &mut Vec<vir::Port>) -> vir::Port {
    ports.pop().expect("a checked count of ports")
}

fn exactly<const N: usize>(ports: Vec<vir::Port>) -> [vir::Port; N] {
    ports.try_into().expect("a checked count of ports")
}

fn invocation(tag: u8, mut ports: Vec<vir::Port>) -> Invocation {
    match tag {
        tag::BARRIER => Invocation::Barrier,
        tag::READ => Invocation::Read(last(&mut ports)),
        tag::WRITE => Invocation::Write(last(&mut ports)),
        tag::READ_BARRIER => Invocation::ReadBarrier(last(&mut ports)),
        tag::BARRIER_WRITE => Invocation::BarrierWrite(last(&mut ports)),
        tag::READ_WRITE => of_two(ports, Invocation::ReadWrite),
        _ => unreachable!("a checked tag"),
    }
}

/// A step that neither normalizer nor analyzer looks into: its ports, in the order of `Step::ports`, and
/// nothing else.
fn plain_step(tag: u8, mut ports: Vec<vir::Port>) -> vir::Step {
    use vir::Step;
    match tag {
        tag::LINK => of_two(ports, Step::Link),
        tag::CALL => {
            let ret = last(&mut ports);
            Step::Call(Span::NONE, FnRelId, ports, ret)
        }
        tag::CONST => Step::Const(Span::NONE, ConstRelId, last(&mut ports)),
        tag::COMPOSITE => Step::Composite(ports.remove(0), ports),
        tag::REWRAP => of_two(ports, Step::Rewrap),
        tag::ENUM => of_two(ports, |a, b| Step::Enum(EnumId(0), VariantId(0), a, b)),
        tag::UNION => of_two(ports, |a, b| Step::Union(UnionId(0), VariantId(0), a, b)),
        tag::REF => of_three(ports, Step::Ref),
        tag::LIST => Step::List(ports.remove(0), ports),
        tag::STRING => {
            let first = ports.remove(0);
            Step::String(first, String::new(), ports.into_iter().map(|port| (port, String::new())).collect())
        }
        tag::INLINE_IVY => {
            let root = last(&mut ports);
            Step::InlineIvy(root, Table, FlatNet, ports.into_iter().map(|port| (Wire, port)).collect())
        }
        tag::BOOL_NOT => of_two(ports, Step::BoolNot),
        tag::BOOL_AND => of_three(ports, Step::BoolAnd),
        _ => unreachable!("a checked tag"),
    }
}

fn of_two<T>(ports: Vec<vir::Port>, make: impl Fn(vir::Port, vir::Port) -> T) -> T {
    let [a, b] = exactly(ports);
    make(a, b)
}

fn of_three<T>(ports: Vec<vir::Port>, make: impl Fn(vir::Port, vir::Port, vir::Port) -> T) -> T {
    let [a, b, c] = exactly(ports);
    make(a, b, c)
}

/// The image of a `Vir` that came, normalised or not, from the image that the notes were taken of.
pub fn from_vir(vir: &Vir, notes: &Notes) -> Image {
    Image {
        layers: vir.layers.values().map(layer_from_vir).collect(),
        interfaces: vir.interfaces.values().map(interface_from_vir).collect(),
        stages: vir.stages.values().map(|stage| notes.stage_from_vir(stage)).collect(),
        locals: vir.locals.values().map(local_from_vir).collect(),
        types: notes.types.clone(),
    }
}

/// A field of 16 bits. `LayerId::NONE`, the largest number, is none.
fn number(n: impl Into<usize>) -> u16 {
    match n.into() {
        usize::MAX => NONE,
        n => n.try_into().expect("a number of 16 bits"),
    }
}

fn numbers<I: Copy + Into<usize>>(list: &[I]) -> Vec<u16> {
    list.iter().map(|&n| number(n)).collect()
}

fn layer_from_vir(layer: &vir::Layer) -> Layer {
    Layer { parent: layer.parent.map_or(NONE, number), stages: numbers(&layer.stages) }
}

fn interface_from_vir(interface: &vir::Interface) -> Interface {
    let (kind, key, list) = match &interface.kind {
        InterfaceKind::Unconditional(a) => (kind::UNCONDITIONAL, 0, numbers(&[*a])),
        InterfaceKind::Branch(a, b) => (kind::BRANCH, 0, numbers(&[*a, *b])),
        InterfaceKind::Match(key, stages) => (kind::MATCH, number(*key), numbers(stages)),
        InterfaceKind::Closure { call, fork, drop } => {
            let list = [Some(*call), *fork, *drop].map(|stage| stage.map_or(NONE, number));
            (kind::CLOSURE, 0, list.to_vec())
        }
        InterfaceKind::Inspect(locals) => (kind::INSPECT, 0, numbers(locals)),
    };
    Interface { layer: number(interface.layer), kind, key, list }
}

fn local_from_vir(local: &vir::VirLocal) -> Local {
    let flag = |bit: u8, set: bool| if set { bit } else { 0 };
    let flags = flag(INV, local.inv.0)
        | flag(FORK, local.fork.is_some())
        | flag(DROP, local.drop.is_some())
        | flag(SELF_INVERSE, local.self_inverse);
    Local { span: local.span.0, ty: type_from(probe::handle(local.ty)), flags }
}

fn type_from(handle: Handle) -> u16 {
    number(handle.number) | if handle.inverse { INVERSE } else { 0 }
}

impl Notes {
    fn stage_from_vir(&self, stage: &vir::Stage) -> Stage {
        Stage {
            span: stage.span.0,
            interface: number(stage.interface),
            layer: number(stage.layer),
            header: header_number(&stage.header),
            key: self.headers.get(stage.id.0).copied().unwrap_or(0),
            ports: self.ports_from_vir(stage.header.ports()),
            declarations: numbers(&stage.declarations),
            steps: stage.steps.iter().map(|step| self.step_from_vir(step)).collect(),
            wires: number(stage.wires.0),
            transfer: transfer_number(stage.transfer.as_ref()),
            data: stage.transfer.as_ref().and_then(|t| t.data.as_ref()).map(|port| self.port_from_vir(port)),
        }
    }

    fn step_from_vir(&self, step: &vir::Step) -> Step {
        let (a, b) = match step {
            vir::Step::Invoke(span, local, _) => (span.0, number(*local)),
            vir::Step::Transfer(transfer) => (0, transfer_number(Some(transfer))),
            vir::Step::Diverge(target, transfer) => {
                (number(*target).into(), transfer_number(transfer.as_ref()))
            }
            _ => (self.key(step), 0),
        };
        Step { tag: tag_number(step), a, b, ports: self.ports_from_vir(step.ports()) }
    }

    /// The key of a step that has at least one port.
    fn key(&self, step: &vir::Step) -> u32 {
        let first = step.ports().next().expect("a step with a key has a port");
        self.note(first).1
    }

    fn note(&self, port: &vir::Port) -> (u32, u32) {
        self.ports[probe::handle(port.ty).port.expect("a port's type carries its number")]
    }

    fn ports_from_vir<'a>(&self, ports: impl Iterator<Item = &'a vir::Port>) -> Vec<Port> {
        ports.map(|port| self.port_from_vir(port)).collect()
    }

    fn port_from_vir(&self, port: &vir::Port) -> Port {
        let (kind, a, b) = match &port.kind {
            PortKind::Wire(span, wire) => (port::WIRE, span.0, number(*wire)),
            other => (port_number(other), self.note(port).0, 0),
        };
        Port { ty: type_from(probe::handle(port.ty)), kind, a, b }
    }
}

fn transfer_number(transfer: Option<&Transfer>) -> u16 {
    transfer.map_or(NONE, |t| number(t.interface))
}

fn port_number(kind: &PortKind) -> u8 {
    match kind {
        PortKind::Nil => port::NIL,
        PortKind::Bool(_) => port::BOOL,
        PortKind::N32(_) => port::N32,
        PortKind::F32(_) => port::F32,
        PortKind::F64(_) => port::F64,
        PortKind::Nat(_) => port::NAT,
        PortKind::Wire(..) => port::WIRE,
        PortKind::Error(_) => port::ERROR,
    }
}

fn header_number(header: &vir::Header) -> u8 {
    match header {
        vir::Header::Bare => header::BARE,
        vir::Header::Const(_) => header::CONST,
        vir::Header::Fn(..) => header::FN,
        vir::Header::Match(..) => header::MATCH,
        vir::Header::Closure(..) => header::CLOSURE,
        vir::Header::Fork(..) => header::FORK,
        vir::Header::Drop => header::DROP,
        vir::Header::Entry(_) => header::ENTRY,
    }
}

fn tag_number(step: &vir::Step) -> u8 {
    use vir::Step;
    match step {
        Step::Invoke(_, _, Invocation::Barrier) => tag::BARRIER,
        Step::Invoke(_, _, Invocation::Read(_)) => tag::READ,
        Step::Invoke(_, _, Invocation::Write(_)) => tag::WRITE,
        Step::Invoke(_, _, Invocation::ReadBarrier(_)) => tag::READ_BARRIER,
        Step::Invoke(_, _, Invocation::BarrierWrite(_)) => tag::BARRIER_WRITE,
        Step::Invoke(_, _, Invocation::ReadWrite(..)) => tag::READ_WRITE,
        Step::Transfer(_) => tag::TRANSFER,
        Step::Diverge(..) => tag::DIVERGE,
        Step::Link(..) => tag::LINK,
        Step::Call(..) => tag::CALL,
        Step::Const(..) => tag::CONST,
        Step::Composite(..) => tag::COMPOSITE,
        Step::Rewrap(..) => tag::REWRAP,
        Step::Enum(..) => tag::ENUM,
        Step::Union(..) => tag::UNION,
        Step::Ref(..) => tag::REF,
        Step::List(..) => tag::LIST,
        Step::String(..) => tag::STRING,
        Step::InlineIvy(..) => tag::INLINE_IVY,
        Step::BoolNot(..) => tag::BOOL_NOT,
        Step::BoolAnd(..) => tag::BOOL_AND,
    }
}

/// What normalising gives.
#[derive(Clone, Debug, PartialEq, Eq)]
pub enum Normalised {
    Flat(Image),
    /// A count of the result is over its maximum: code 9.
    Excess,
}

/// Vine's `normalize` on a layered image.
pub fn normalise(image: &Image) -> Normalised {
    let (vir, notes) = to_vir(image);
    // An image may ask for millions of locals. Locals only become more, so the first that is over the
    // maximum decides.
    let room = MAXIMA[3] - image.locals.len();
    let flex = image.types.iter().map(|ty| [flex(ty.upright), flex(ty.inverted)]).collect();
    let mut finder = FinderCache { flex, room };
    let run = || {
        let (chart, mut diags) = (Chart::default(), Diags::default());
        normalize(&chart, &Signatures, &mut diags, &mut finder, &Fragment::default(), &vir)
    };
    match catch_unwind(AssertUnwindSafe(run)) {
        Ok(flat) => {
            let flat = from_vir(&flat, &notes);
            if flat.excessive() { Normalised::Excess } else { Normalised::Flat(flat) }
        }
        Err(cause) if cause.is::<NoRoom>() => Normalised::Excess,
        Err(cause) => resume_unwind(cause),
    }
}

/// The image, normalised if it has layers.
pub fn flat(image: Image) -> Normalised {
    if image.layers.is_empty() { Normalised::Flat(image) } else { normalise(&image) }
}

/// What Vine's analyzer makes of a flat image, locals in number order. Variables and relations are numbers.
#[derive(Clone, Debug)]
pub struct Analysis {
    pub incoming: Vec<u32>,
    /// For each interface a row with a place for each local.
    pub wires: Vec<Vec<Option<Triple>>>,
    pub variables: usize,
    /// The three inputs and the output of each relation, in creation order.
    pub relations: Vec<[usize; 4]>,
    /// The interior and the exterior variable of each interface.
    pub transfers: Vec<(usize, usize)>,
    /// The variable of each segment: outside interface 0, inside each Inspect, then those of the stages.
    pub segments: Vec<usize>,
    /// For each stage the variable of each piece between its Transfers, PASS where nothing is invoked;
    /// none for an unreached stage.
    pub pieces: Vec<Vec<usize>>,
    /// The stage, its connected and its disconnected variable.
    pub disconnects: Vec<(usize, usize, usize)>,
    pub processed: Vec<Processed>,
}

#[derive(Clone, Debug)]
pub struct Processed {
    pub local: u16,
    pub inverse: bool,
    /// Each variable's effect right after `fill_segments`.
    pub seeds: Vec<Effect>,
    /// Each variable's effect at the fixed point.
    pub effects: Vec<Effect>,
    pub diagnostics: Vec<Diagnostic>,
}

/// Vine's analyzer on a flat image, one of its methods at a time.
pub fn analyse(image: &Image, span: u32) -> Analysis {
    let (mut vir, _) = to_vir(image);
    let run = analyzer::probe::run(Span(span), &mut vir);
    let processed = run.processed.into_iter().map(|p| {
        let local = number(p.local);
        let diagnostics = p.diags.iter().map(|diag| diagnostic_of(diag, local)).collect();
        Processed { local, inverse: p.inverse, seeds: p.seeds, effects: p.effects, diagnostics }
    });
    let incoming = incoming(&vir);
    Analysis {
        pieces: pieces(image, &incoming, &run.segments),
        incoming,
        wires: wires(&vir),
        variables: run.variables,
        relations: run.relations,
        transfers: vir.interfaces.values().map(transfer_variables).collect(),
        segments: run.segments,
        disconnects: run.disconnects,
        processed: processed.collect(),
    }
}

/// `build` makes a stage's segments in the order of its pieces, and none for a piece without invocations.
fn pieces(image: &Image, incoming: &[u32], segments: &[usize]) -> Vec<Vec<usize>> {
    let inspects = image.interfaces.iter().filter(|i| i.kind == kind::INSPECT).count();
    let mut segments = segments[1 + inspects..].iter().copied();
    let mut variable = |piece: &[Step]| {
        let invokes = piece.iter().any(|step| step.tag < tag::TRANSFER);
        if invokes { segments.next().expect("a segment for each such piece") } else { EffectVar::PASS.0 }
    };
    let mut of_stage = |stage: &Stage| match incoming[stage.interface as usize] {
        0 => vec![],
        _ => stage.steps.split(|step| step.tag == tag::TRANSFER).map(&mut variable).collect(),
    };
    image.stages.iter().map(&mut of_stage).collect()
}

fn incoming(vir: &Vir) -> Vec<u32> {
    vir.interfaces.values().map(|i| i.incoming.try_into().expect("a count of 32 bits")).collect()
}

fn wires(vir: &Vir) -> Vec<Vec<Option<Triple>>> {
    let row =
        |wires: &BTreeMap<tir::Local, Triple>| vir.locals.keys().map(|l| wires.get(&l).copied()).collect();
    vir.interfaces.values().map(|interface| row(&interface.wires)).collect()
}

fn transfer_variables(interface: &vir::Interface) -> (usize, usize) {
    let [interior, exterior] = [interface.interior, interface.exterior];
    (interior.expect("`build` makes it").0, exterior.expect("`build` makes it").0)
}

fn diagnostic_of(diag: &Diag, local: u16) -> Diagnostic {
    let (kind, span, ty) = match diag {
        Diag::InfiniteLoop { span } => (diagnostic::INFINITE_LOOP, span, None),
        Diag::CannotDrop { span, ty } => (diagnostic::CANNOT_DROP, span, Some(ty)),
        Diag::UninitializedVariable { span, ty } => (diagnostic::UNINITIALIZED_VARIABLE, span, Some(ty)),
        Diag::CannotFork { span, ty } => (diagnostic::CANNOT_FORK, span, Some(ty)),
        Diag::ValueLaterUsedHere { span } => (diagnostic::VALUE_LATER_USED_HERE, span, None),
        Diag::CannotInfer { .. } => unreachable!("no type is inferred"),
    };
    Diagnostic { kind, span: span.0, ty: ty.map_or(NONE, |ty| type_from(probe::shown(ty))), local }
}

/// The report of document 01 on a flat image: what the Rust found, and the counts of the plain worklist.
pub fn report(image: &Image, span: u32) -> Report {
    let analysis = analyse(image, span);
    debug_assert!(is_as_analyze(&analysis, image, span), "the probed run is the Rust's own");
    let (mut takes, mut evaluations) = (0, 0);
    for processed in &analysis.processed {
        let solution = worklist::solve(&analysis.relations, &processed.seeds, processed.inverse);
        debug_assert_eq!(solution.effects, processed.effects, "the worklist's effects are the Rust's");
        takes += solution.takes();
        evaluations += solution.evaluations;
    }
    let mut diagnostics: Vec<_> = analysis.processed.iter().flat_map(|p| p.diagnostics.clone()).collect();
    let total = diagnostics.len();
    diagnostics.truncate(KEPT);
    Report {
        verdict: u8::from(total != 0),
        takes,
        evaluations,
        total: total.try_into().expect("a count of 32 bits"),
        incoming: analysis.incoming,
        wires: analysis.wires,
        diagnostics,
    }
}

/// What document 01's program makes of an accepted image: the flat image and the report on it; none if normalising
/// gives code 9.
pub fn program(image: &[u8]) -> Option<(Vec<u8>, Vec<u8>)> {
    match flat(Image::decode(image)) {
        Normalised::Flat(flat) => Some((flat.encode(), report(&flat, 0).encode())),
        Normalised::Excess => None,
    }
}

/// Whether Vine's `analyze`, left alone, gives the same: it takes locals in a hash map's order, so diagnostics
/// compare in order with one processed local, and else as a multiset without the local.
pub fn is_as_analyze(analysis: &Analysis, image: &Image, span: u32) -> bool {
    let (mut vir, _) = to_vir(image);
    let mut diags = Diags::default();
    analyzer::analyze(&Chart::default(), &mut diags, Span(span), &mut vir);
    let nameless = |d: &Diagnostic| Diagnostic { local: NONE, ..*d };
    let mut ours: Vec<_> = analysis.processed.iter().flat_map(|p| &p.diagnostics).map(nameless).collect();
    let mut theirs: Vec<_> = diags.diags.iter().map(|diag| diagnostic_of(diag, NONE)).collect();
    if analysis.processed.len() > 1 {
        ours.sort();
        theirs.sort();
    }
    (incoming(&vir), wires(&vir), theirs) == (analysis.incoming.clone(), analysis.wires.clone(), ours)
}
