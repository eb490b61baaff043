//! The slips, and the edits that make them.

/// A slip's name, and what goes wrong.
pub const SLIPS: [(&str, &str); 14] = [
    ("two-rounds", "the fixed point stops after two rounds over the relations"),
    ("first-in-first-out", "the worklist is taken first in, first out"),
    ("arrival", "a split numbers its new locals as their wires were opened, and not lowest wire first"),
    ("ports-after", "a step's own ports are taken into the open wires after the split"),
    ("reached-inspect", "reads are strict only where an Inspect is reached"),
    ("strict-diagnostics", "the diagnostics take the strict read beside an Inspect"),
    ("join-order-only", "for an inverse local the joins are turned, but not the triple's ends"),
    ("triple-only", "for an inverse local the triple's ends are swapped, but the joins not turned"),
    ("infinite-twice", "InfiniteLoop is reported wherever it is met, and not once a call"),
    ("barrier-merge", "the union of Barrier and BarrierWrite is BarrierWrite"),
    ("never-union", "a union with Never is Never"),
    (
        "input-without-pass",
        "a value goes in only where it is read inside, and not where it passes to be handed out again",
    ),
    ("exterior-pass", "whether a value that is handed out also passes is asked of the effect outside"),
    ("exterior-barrier", "a wire's barrier is that of the effect outside"),
];

/// In the file, `from`, which it has exactly once, becomes `to`. In `to`, SLIP says whether the slip is to be made, so
/// that one build has them all.
pub struct Edit {
    pub slip: &'static str,
    pub file: &'static str,
    pub from: &'static str,
    pub to: &'static str,
}

pub const EDITS: [Edit; 20] = [
    // PASS alone waits and hands out every relation twice; nothing else enters.
    Edit {
        slip: "two-rounds",
        file: "analyzer.rs",
        from: "while let Some(var) = self.dirty.pop() {",
        to: "if SLIP {
      self.dirty = vec![EffectVar::PASS];
      self.dependent[EffectVar::PASS] = self.relations.keys().chain(self.relations.keys()).collect();
    }
    while let Some(var) = self.dirty.pop() {",
    },
    Edit {
        slip: "two-rounds",
        file: "analyzer.rs",
        from: "self.mark_dirty(out);",
        to: "if !SLIP { self.mark_dirty(out); }",
    },
    Edit {
        slip: "first-in-first-out",
        file: "worklist.rs",
        from: "waiting.pop()",
        to: "if SLIP && waiting.len() > 1 { Some(waiting.remove(0)) } else { waiting.pop() }",
    },
    // A wire's key gets its arrival in front of it, which is 0 for all wires without the slip.
    Edit {
        slip: "arrival",
        file: "normalizer.rs",
        from: "open_wires: &mut BTreeMap<WireId, (Span, Type)>",
        to: "open_wires: &mut BTreeMap<(usize, WireId), (Span, Type)>",
    },
    Edit {
        slip: "arrival",
        file: "normalizer.rs",
        from: "match open_wires.entry(*wire) {",
        to: "let open = open_wires.keys().find(|(_, open)| open == wire).copied();
    let next = open_wires.keys().last().map_or(0, |(arrival, _)| arrival + 1);
    match open_wires.entry(open.unwrap_or((if SLIP { next } else { 0 }, *wire))) {",
    },
    Edit {
        slip: "arrival",
        file: "normalizer.rs",
        from: "for (&wire, &(span, ty)) in &open_wires {",
        to: "for (&(_, wire), &(span, ty)) in &open_wires {",
    },
    Edit {
        slip: "ports-after",
        file: "normalizer.rs",
        from: "for port in step.ports() {",
        to: "for port in step.ports().filter(|_| !SLIP) {",
    },
    Edit {
        slip: "ports-after",
        file: "normalizer.rs",
        from: "          stage.steps.push(step.clone());
        }
",
        to: "          stage.steps.push(step.clone());
        }
        for port in step.ports().filter(|_| SLIP) {
          update_open_wires(&mut open_wires, port);
        }
",
    },
    Edit {
        slip: "reached-inspect",
        file: "analyzer.rs",
        from: "strict_non_fork = true;",
        to: "strict_non_fork |= !SLIP || self.interfaces[interface].incoming != 0;",
    },
    Edit {
        slip: "strict-diagnostics",
        file: "analyzer.rs",
        from: "let effect = invocation.effect(info.inv, true);",
        to: "let inspect = |i: &Interface| matches!(i.kind, InterfaceKind::Inspect(_));
          let strict_non_fork = SLIP && self.interfaces.values().any(inspect);
          let effect = invocation.effect(info.inv, info.fork.is_some() || !strict_non_fork);",
    },
    Edit {
        slip: "join-order-only",
        file: "analyzer.rs",
        from: "let wire = if inv.0 {",
        to: "let wire = if inv.0 && !SLIP {",
    },
    Edit {
        slip: "triple-only",
        file: "analyzer.rs",
        from: "*effect = if local.inv.0 {",
        to: "*effect = if local.inv.0 && !SLIP {",
    },
    Edit {
        slip: "triple-only",
        file: "analyzer.rs",
        from: "let abc = if inv.0 {",
        to: "let abc = if inv.0 && !SLIP {",
    },
    Edit {
        slip: "triple-only",
        file: "worklist.rs",
        from: "let joined = if inverse {",
        to: "let joined = if inverse && !SLIP {",
    },
    Edit {
        slip: "infinite-twice",
        file: "analyzer.rs",
        from: "if !self.infinite_loop {",
        to: "if SLIP || !self.infinite_loop {",
    },
    Edit {
        slip: "barrier-merge",
        file: "effect.rs",
        from: "UNION[self as usize][other as usize]",
        to: "if SLIP && matches!((self, other), (B, BW) | (BW, B)) { BW } else { UNION[self as usize][other as usize] }",
    },
    Edit {
        slip: "never-union",
        file: "effect.rs",
        from: "UNION[self as usize][other as usize]",
        to: "if SLIP && (self == X || other == X) { X } else { UNION[self as usize][other as usize] }",
    },
    Edit {
        slip: "input-without-pass",
        file: "analyzer.rs",
        from: "interior.read() || output && interior.pass()",
        to: "interior.read() || !SLIP && output && interior.pass()",
    },
    Edit {
        slip: "exterior-pass",
        file: "analyzer.rs",
        from: "output && interior.pass()",
        to: "output && if SLIP { exterior.pass() } else { interior.pass() }",
    },
    Edit {
        slip: "exterior-barrier",
        file: "analyzer.rs",
        from: "let barrier = interior.barrier();",
        to: "let barrier = if SLIP { exterior.barrier() } else { interior.barrier() };",
    },
];
