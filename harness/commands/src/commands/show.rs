//! The listing of an image.

use std::io::Read;

use harness::image::*;

use super::{command::Answer, input::image};

const KINDS: [&str; 5] = ["Unconditional", "Branch", "Match", "Closure", "Inspect"];
const HEADERS: [&str; 8] = ["Bare", "Const", "Fn", "Match", "Closure", "Fork", "Drop", "Entry"];
#[rustfmt::skip]
const TAGS: [&str; 21] = [
    "Barrier", "Read", "Write", "ReadBarrier", "BarrierWrite", "ReadWrite", "Transfer", "Diverge", "Link", "Call",
    "Const", "Composite", "Rewrap", "Enum", "Union", "Ref", "List", "String", "InlineIvy", "BoolNot", "BoolAnd",
];
const PORTS: [&str; 8] = ["Nil", "Bool", "N32", "F32", "F64", "Nat", "Wire", "Error"];
const FLAGS: [(u8, &str); 4] = [(INV, "inv"), (FORK, "fork"), (DROP, "drop"), (SELF_INVERSE, "self_inverse")];

pub fn run(_: &[String], input: &mut dyn Read) -> Answer {
    Ok(listing(&image(input)?).into_bytes())
}

/// A line for each record; a list stands in the line of the record that owns it, and so does a port.
fn listing(image: &Image) -> String {
    let mut lines = vec![];
    for (n, Layer { parent, stages }) in image.layers.iter().enumerate() {
        lines.push(format!("layer {n}: parent {}, stages [{}]", some(*parent), list(stages)));
    }
    for (n, interface) in image.interfaces.iter().enumerate() {
        lines.push(format!("interface {n}: {}", interface_line(interface)));
    }
    for (n, stage) in image.stages.iter().enumerate() {
        lines.push(format!("stage {n}: {}", stage_line(stage)));
        let steps = stage.steps.iter().enumerate();
        lines.extend(steps.map(|(n, step)| format!("  step {n}: {}", step_line(step))));
    }
    for (n, Local { span, ty, flags: local }) in image.locals.iter().enumerate() {
        lines.push(format!("local {n}: {}, span {span}, flags [{}]", type_name(*ty), flags(*local)));
    }
    for (n, Type { upright, inverted }) in image.types.iter().enumerate() {
        lines.push(format!("type {n}: upright [{}], inverted [{}]", flags(*upright), flags(*inverted)));
    }
    lines.join("\n") + "\n"
}

fn interface_line(Interface { layer, kind, key, list: entries }: &Interface) -> String {
    let of = if *kind == kind::INSPECT { "locals" } else { "stages" };
    let key = if *kind == kind::MATCH { format!(" {key}") } else { String::new() };
    format!("{}{key}, {of} [{}], layer {}", KINDS[*kind as usize], list(entries), some(*layer))
}

fn stage_line(stage: &Stage) -> String {
    let Stage { span, interface, header, key, wires, .. } = stage;
    let header = format!("{} {key} [{}]", HEADERS[*header as usize], ports(&stage.ports));
    let declares = list(&stage.declarations);
    let transfer = format!("transfer {} [{}]", some(stage.transfer), ports(stage.data.as_slice()));
    let layer = some(stage.layer);
    format!(
        "interface {interface}, layer {layer}, {header}, declares [{declares}], {transfer}, wires {wires}, span {span}"
    )
}

fn step_line(Step { tag, a, b, ports: own }: &Step) -> String {
    let what = match *tag {
        tag::TRANSFER => format!("interface {b}"),
        tag::DIVERGE => format!("layer {a}, interface {}", some(*b)),
        tag if tag < tag::TRANSFER => format!("local {b}, span {a}"),
        _ => format!("key {a}"),
    };
    format!("{} {what} [{}]", TAGS[*tag as usize], ports(own))
}

fn ports(ports: &[Port]) -> String {
    let port = |&Port { ty, kind, a, b }: &Port| match kind {
        port::WIRE => format!("{} Wire {b} span {a}", type_name(ty)),
        _ => format!("{} {} {a}", type_name(ty), PORTS[kind as usize]),
    };
    ports.iter().map(port).collect::<Vec<_>>().join(", ")
}

/// A type as the analyzer's stand-in for types shows it.
fn type_name(ty: u16) -> String {
    format!("{}?{}", if ty & INVERSE != 0 { "~" } else { "" }, ty & !INVERSE)
}

fn flags(set: u8) -> String {
    let set: Vec<_> = FLAGS.iter().filter(|(bit, _)| set & bit != 0).map(|&(_, name)| name).collect();
    set.join(" ")
}

fn some(n: u16) -> String {
    if n == NONE { "none".into() } else { n.to_string() }
}

fn list(numbers: &[u16]) -> String {
    numbers.iter().map(|&n| some(n)).collect::<Vec<_>>().join(" ")
}
