//! What Vine's own functions give in every case of a small domain, as antt text: the definitions are proved to agree with it.

use crate::{
    bridge::{EFFECTS, invocation_effect, report_errors, set_wires},
    image::*,
    report::{Triple, half, triple},
};

/// A table of numbers, a row a line: its name in antt, and its rows.
type Rows = (&'static str, Vec<Vec<u64>>);

pub struct Table {
    /// The module's name, and the crate whose specs/ it stands in.
    pub name: &'static str,
    pub of: &'static str,
    /// What the numbers are, and their order.
    about: &'static str,
    rows: fn() -> Vec<Rows>,
}

pub const TABLES: [Table; 3] = [
    Table {
        name: "RustInvocations",
        of: "vir",
        about: "\
-- What the Rust's `Invocation::effect` gives: `harness tables` writes it, and harness/tests/tables.rs holds it to the Rust.
-- A row for each invocation, by its number 0 to 5; in it the number of the effect for a local with neither inv nor fork, with fork, with inv, with both.
",
        rows: || vec![("rust_invocations", invocations())],
    },
    Table {
        name: "RustWires",
        of: "analyzer",
        about: "\
-- What the Rust's `set_wires` gives: `harness tables` writes it, and harness/tests/tables.rs holds it to the Rust.
-- A row for a local with neither inv nor fork, with fork, with inv, with both, and in each for the effect inside, by its number 0 to 10; in it the effect
-- outside, by its number. The half byte of the report: bit 0 wire present, 1 to 3 the triple in order; and bit 4: InfiniteLoop is said.
",
        rows: || vec![("rust_wires", wires())],
    },
    Table {
        name: "RustErrors",
        of: "analyzer",
        about: "\
-- What the Rust's `report_errors` says of one stage: `harness tables` writes it, and harness/tests/tables.rs holds it to the Rust.
-- A row for the flags 0 to 7 of the local, and in each for its wire at the stage's interface: none, or a triple by its number 0 to 7 (as bits, the first lowest).
-- In the row the stage's only step: the six invocations of the local, ReadWrite of another, a Transfer to an interface with no wire or with a triple, Link.
-- A number has two digits for each diagnostic: kind and span. The local's span is 9, a step's is its place, from 1.
-- Two steps: a row for the flags, the wire (none, triple 0, triple 7) and the first step; in it the second; each of Barrier, Read, Write, ReadWrite of another,
-- and Transfer to an interface with the triple 1 or 4.
",
        rows: || vec![("rust_one_step", one_step()), ("rust_two_steps", two_steps())],
    },
];

impl Table {
    /// The file's text.
    pub fn text(&self) -> String {
        let uses = "use Rattle.std.specs.Prelude.{List, [], ◌∷◌, ℕ}\n";
        let row = |row: &Vec<u64>| {
            let numbers: String = row.iter().map(|n| format!("{n} ∷ ")).collect();
            format!("    ({numbers}[]) ∷\n")
        };
        let list = |(name, rows): &Rows| {
            let rows: String = rows.iter().map(row).collect();
            format!("\nunfoldable pub {name} : List (List ℕ)\n{name} =\n{rows}    []\n")
        };
        let lists: String = (self.rows)().iter().map(list).collect();
        format!("{}{uses}{lists}", self.about)
    }
}

fn invocations() -> Vec<Vec<u64>> {
    let cases = [(false, false), (false, true), (true, false), (true, true)];
    let row = |tag| cases.map(|(inv, fork)| invocation_effect(tag, inv, fork) as u64).to_vec();
    (tag::BARRIER..=tag::READ_WRITE).map(row).collect()
}

fn wires() -> Vec<Vec<u64>> {
    let entry = |flags, interior, exterior| {
        let (wire, infinite_loop) = set_wires(flags, interior, exterior);
        u64::from(half(wire)) + 16 * u64::from(infinite_loop)
    };
    let of_local =
        |flags| EFFECTS.map(|interior| EFFECTS.map(|exterior| entry(flags, interior, exterior)).to_vec());
    [0, FORK, INV, INV | FORK].into_iter().flat_map(of_local).collect()
}

/// What a step does: it has its place, from 1, as its span and as the interface that it may transfer to.
#[derive(Clone, Copy)]
enum Act {
    Invoke(u8),
    InvokeAnother,
    Transfer(Option<Triple>),
    Link,
}

fn triple_of(number: u8) -> Option<Triple> {
    triple(2 * number + 1)
}

/// No wire, and every triple.
fn all_wires() -> impl Iterator<Item = Option<Triple>> {
    [None].into_iter().chain((0..8).map(triple_of))
}

fn one_step() -> Vec<Vec<u64>> {
    let invocations = (tag::BARRIER..=tag::READ_WRITE).map(Act::Invoke);
    let acts =
        invocations.chain([Act::InvokeAnother]).chain(all_wires().map(Act::Transfer)).chain([Act::Link]);
    let acts: Vec<Act> = acts.collect();
    let row = |flags, wire| acts.iter().map(|&act| said(flags, wire, &[act])).collect();
    (0..8)
        .flat_map(|flags| all_wires().map(move |wire| (flags, wire)))
        .map(|(flags, wire)| row(flags, wire))
        .collect()
}

fn two_steps() -> Vec<Vec<u64>> {
    let [barrier, read, write] = [tag::BARRIER, tag::READ, tag::WRITE].map(Act::Invoke);
    let [to_first, to_third] = [1, 4].map(|number| Act::Transfer(triple_of(number)));
    let acts = [barrier, read, write, Act::InvokeAnother, to_first, to_third];
    let mut rows = vec![];
    for flags in 0..8 {
        for wire in [None, triple_of(0), triple_of(7)] {
            rows.extend(acts.map(|first| acts.map(|second| said(flags, wire, &[first, second])).to_vec()));
        }
    }
    rows
}

/// What is said of a local with these flags, and this wire at the interface of the stage that does the acts.
fn said(flags: u8, wire: Option<Triple>, acts: &[Act]) -> u64 {
    let step = |place: usize, act: Act| {
        let (tag, a, b, ports) = match act {
            Act::Invoke(tag::BARRIER) => (tag::BARRIER, place, 0, 0),
            Act::Invoke(tag::READ_WRITE) => (tag::READ_WRITE, place, 0, 2),
            Act::Invoke(tag) => (tag, place, 0, 1),
            Act::InvokeAnother => (tag::READ_WRITE, place, 1, 2),
            Act::Transfer(_) => (tag::TRANSFER, 0, place, 0),
            Act::Link => (tag::LINK, 0, 0, 2),
        };
        Step { tag, a: a as u32, b: b as u16, ports: vec![Port::default(); ports] }
    };
    let steps = acts.iter().enumerate().map(|(n, &act)| step(n + 1, act)).collect();
    let own = Interface { layer: NONE, kind: kind::UNCONDITIONAL, key: 0, list: vec![0] };
    let onward = Interface { kind: kind::MATCH, list: vec![], ..own.clone() };
    let image = Image {
        interfaces: [vec![own], vec![onward; acts.len()]].concat(),
        stages: vec![Stage { layer: NONE, steps, transfer: NONE, ..Stage::default() }],
        locals: vec![Local { span: 9, ty: 0, flags }, Local::default()],
        types: vec![Type::default()],
        ..Image::default()
    };
    let onward = acts.iter().map(|act| if let Act::Transfer(wire) = act { *wire } else { None });
    let wires: Vec<Option<Triple>> = [wire].into_iter().chain(onward).collect();
    let digits = |number, kind: u8, span: u32| 100 * number + 10 * u64::from(kind) + u64::from(span);
    report_errors(&image, &wires).iter().fold(0, |number, d| digits(number, d.kind, d.span))
}
