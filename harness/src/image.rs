//! The image of document 01 as a value, and its bytes.
//!
//! A record holds its own lists, so the places of lists exist only in the bytes. `encode` lays the lists end to end as
//! document 01 asks; `decode` reads an image that is known to be accepted.

pub const NONE: u16 = 0xffff;
pub const INVERSE: u16 = 0x8000;
pub const VERSION: u16 = 1;

/// The counts' maxima, in the order of the sections.
pub const MAXIMA: [usize; 8] = [64, 256, 256, 256, 1024, 2048, 2560, 2048];
/// The records' sizes, in the order of the sections.
pub const SIZES: [usize; 8] = [6, 9, 30, 7, 2, 11, 9, 2];
pub const HEADER: usize = 21;
pub const LARGEST: usize = 63_893;

#[derive(Clone, Debug, Default, PartialEq, Eq)]
pub struct Image {
    pub layers: Vec<Layer>,
    pub interfaces: Vec<Interface>,
    pub stages: Vec<Stage>,
    pub locals: Vec<Local>,
    pub types: Vec<Type>,
}

#[derive(Clone, Debug, Default, PartialEq, Eq)]
pub struct Layer {
    pub parent: u16,
    pub stages: Vec<u16>,
}

#[derive(Clone, Debug, Default, PartialEq, Eq)]
pub struct Interface {
    pub layer: u16,
    pub kind: u8,
    pub key: u16,
    pub list: Vec<u16>,
}

#[derive(Clone, Debug, Default, PartialEq, Eq)]
pub struct Stage {
    pub span: u32,
    pub interface: u16,
    pub layer: u16,
    pub header: u8,
    pub key: u32,
    pub ports: Vec<Port>,
    pub declarations: Vec<u16>,
    pub steps: Vec<Step>,
    pub wires: u16,
    pub transfer: u16,
    pub data: Option<Port>,
}

#[derive(Clone, Copy, Debug, Default, PartialEq, Eq)]
pub struct Local {
    pub span: u32,
    pub ty: u16,
    pub flags: u8,
}

/// The flags of a type, upright and inverted.
#[derive(Clone, Copy, Debug, Default, PartialEq, Eq)]
pub struct Type {
    pub upright: u8,
    pub inverted: u8,
}

#[derive(Clone, Debug, Default, PartialEq, Eq)]
pub struct Step {
    pub tag: u8,
    pub a: u32,
    pub b: u16,
    pub ports: Vec<Port>,
}

#[derive(Clone, Copy, Debug, Default, PartialEq, Eq)]
pub struct Port {
    pub ty: u16,
    pub kind: u8,
    pub a: u32,
    pub b: u16,
}

/// The flags of a local or a type.
pub const INV: u8 = 1;
pub const FORK: u8 = 2;
pub const DROP: u8 = 4;
pub const SELF_INVERSE: u8 = 8;

/// The numbers of document 01 for an interface's kind.
pub mod kind {
    pub const UNCONDITIONAL: u8 = 0;
    pub const BRANCH: u8 = 1;
    pub const MATCH: u8 = 2;
    pub const CLOSURE: u8 = 3;
    pub const INSPECT: u8 = 4;
}

/// The numbers of document 01 for a stage's header.
pub mod header {
    pub const BARE: u8 = 0;
    pub const CONST: u8 = 1;
    pub const FN: u8 = 2;
    pub const MATCH: u8 = 3;
    pub const CLOSURE: u8 = 4;
    pub const FORK: u8 = 5;
    pub const DROP: u8 = 6;
    pub const ENTRY: u8 = 7;
}

/// The numbers of document 01 for a step.
pub mod tag {
    pub const BARRIER: u8 = 0;
    pub const READ: u8 = 1;
    pub const WRITE: u8 = 2;
    pub const READ_BARRIER: u8 = 3;
    pub const BARRIER_WRITE: u8 = 4;
    pub const READ_WRITE: u8 = 5;
    pub const TRANSFER: u8 = 6;
    pub const DIVERGE: u8 = 7;
    pub const LINK: u8 = 8;
    pub const CALL: u8 = 9;
    pub const CONST: u8 = 10;
    pub const COMPOSITE: u8 = 11;
    pub const REWRAP: u8 = 12;
    pub const ENUM: u8 = 13;
    pub const UNION: u8 = 14;
    pub const REF: u8 = 15;
    pub const LIST: u8 = 16;
    pub const STRING: u8 = 17;
    pub const INLINE_IVY: u8 = 18;
    pub const BOOL_NOT: u8 = 19;
    pub const BOOL_AND: u8 = 20;
}

/// The numbers of document 01 for a port.
pub mod port {
    pub const NIL: u8 = 0;
    pub const BOOL: u8 = 1;
    pub const N32: u8 = 2;
    pub const F32: u8 = 3;
    pub const F64: u8 = 4;
    pub const NAT: u8 = 5;
    pub const WIRE: u8 = 6;
    pub const ERROR: u8 = 7;
}

struct Out(Vec<u8>);

impl Out {
    fn u8(&mut self, v: u8) {
        self.0.push(v);
    }
    fn u16(&mut self, v: usize) {
        self.0.extend(u16::try_from(v).expect("a field of 16 bits").to_le_bytes());
    }
    fn u32(&mut self, v: u32) {
        self.0.extend(v.to_le_bytes());
    }
    /// A list's place and count, the place being where the last list of this section ended.
    fn list(&mut self, place: &mut usize, count: usize) {
        self.u16(*place);
        self.u16(count);
        *place += count;
    }
}

impl Image {
    /// The eight counts, in the order of the sections.
    pub fn counts(&self) -> [usize; 8] {
        let steps = || self.stages.iter().flat_map(|s| &s.steps);
        let header_ports = self.stages.iter().map(|s| s.ports.len() + usize::from(s.data.is_some()));
        let refs = self.layers.iter().map(|l| l.stages.len()).sum::<usize>()
            + self.interfaces.iter().map(|i| i.list.len()).sum::<usize>()
            + self.stages.iter().map(|s| s.declarations.len()).sum::<usize>();
        [
            self.layers.len(),
            self.interfaces.len(),
            self.stages.len(),
            self.locals.len(),
            self.types.len(),
            steps().count(),
            header_ports.sum::<usize>() + steps().map(|s| s.ports.len()).sum::<usize>(),
            refs,
        ]
    }

    pub fn excessive(&self) -> bool {
        self.counts().iter().zip(MAXIMA).any(|(&n, max)| n > max)
    }

    /// The bytes of version 1. Panics where a count does not fit 16 bits.
    pub fn encode(&self) -> Vec<u8> {
        let mut o = Out(b"VIR".to_vec());
        o.u16(VERSION as usize);
        for n in self.counts() {
            o.u16(n);
        }
        let (mut refs, mut steps, mut ports) = (0, 0, 0);
        for l in &self.layers {
            o.u16(l.parent as usize);
            o.list(&mut refs, l.stages.len());
        }
        for i in &self.interfaces {
            o.u16(i.layer as usize);
            o.u8(i.kind);
            o.u16(i.key as usize);
            o.list(&mut refs, i.list.len());
        }
        for s in &self.stages {
            o.u32(s.span);
            o.u16(s.interface as usize);
            o.u16(s.layer as usize);
            o.u8(s.header);
            o.u32(s.key);
            o.list(&mut ports, s.ports.len());
            ports += usize::from(s.data.is_some());
            o.list(&mut refs, s.declarations.len());
            o.list(&mut steps, s.steps.len());
            o.u16(s.wires as usize);
            o.u16(s.transfer as usize);
            o.u8(u8::from(s.data.is_some()));
        }
        for l in &self.locals {
            o.u32(l.span);
            o.u16(l.ty as usize);
            o.u8(l.flags);
        }
        for t in &self.types {
            o.u8(t.upright);
            o.u8(t.inverted);
        }
        for s in self.stages.iter().flat_map(|s| &s.steps) {
            o.u8(s.tag);
            o.u32(s.a);
            o.u16(s.b as usize);
            o.list(&mut ports, s.ports.len());
        }
        let of_stages = self.stages.iter().flat_map(|s| s.ports.iter().chain(&s.data));
        let of_steps = self.stages.iter().flat_map(|s| &s.steps).flat_map(|s| &s.ports);
        for p in of_stages.chain(of_steps) {
            o.u16(p.ty as usize);
            o.u8(p.kind);
            o.u32(p.a);
            o.u16(p.b as usize);
        }
        let of_layers = self.layers.iter().flat_map(|l| &l.stages);
        let of_interfaces = self.interfaces.iter().flat_map(|i| &i.list);
        let of_stages = self.stages.iter().flat_map(|s| &s.declarations);
        for &r in of_layers.chain(of_interfaces).chain(of_stages) {
            o.u16(r as usize);
        }
        o.0
    }

    /// The value of an accepted image. Panics on bytes that are no image; use it behind a check.
    pub fn decode(bytes: &[u8]) -> Image {
        let u16_at = |p: usize| u16::from_le_bytes([bytes[p], bytes[p + 1]]);
        let u32_at = |p: usize| u32::from_le_bytes([bytes[p], bytes[p + 1], bytes[p + 2], bytes[p + 3]]);
        let counts: [usize; 8] = std::array::from_fn(|i| u16_at(5 + 2 * i) as usize);
        let mut starts = [HEADER; 8];
        for i in 1..8 {
            starts[i] = starts[i - 1] + SIZES[i - 1] * counts[i - 1];
        }
        let at = |section: usize, n: usize| starts[section] + SIZES[section] * n;
        let list = |p: usize| {
            let first = u16_at(p) as usize;
            first..first + u16_at(p + 2) as usize
        };
        let refs = |p: usize| list(p).map(|r| u16_at(at(7, r))).collect::<Vec<_>>();
        let port = |n: usize| {
            let p = at(6, n);
            Port { ty: u16_at(p), kind: bytes[p + 2], a: u32_at(p + 3), b: u16_at(p + 7) }
        };
        let step = |n: usize| {
            let p = at(5, n);
            Step { tag: bytes[p], a: u32_at(p + 1), b: u16_at(p + 5), ports: list(p + 7).map(port).collect() }
        };
        let stage = |n: usize| {
            let p = at(2, n);
            let ports = list(p + 13);
            Stage {
                span: u32_at(p),
                interface: u16_at(p + 4),
                layer: u16_at(p + 6),
                header: bytes[p + 8],
                key: u32_at(p + 9),
                data: (bytes[p + 29] != 0).then(|| port(ports.end)),
                ports: ports.map(port).collect(),
                declarations: refs(p + 17),
                steps: list(p + 21).map(step).collect(),
                wires: u16_at(p + 25),
                transfer: u16_at(p + 27),
            }
        };
        Image {
            layers: (0..counts[0])
                .map(|n| Layer { parent: u16_at(at(0, n)), stages: refs(at(0, n) + 2) })
                .collect(),
            interfaces: (0..counts[1])
                .map(|n| {
                    let p = at(1, n);
                    Interface { layer: u16_at(p), kind: bytes[p + 2], key: u16_at(p + 3), list: refs(p + 5) }
                })
                .collect(),
            stages: (0..counts[2]).map(stage).collect(),
            locals: (0..counts[3])
                .map(|n| {
                    let p = at(3, n);
                    Local { span: u32_at(p), ty: u16_at(p + 4), flags: bytes[p + 6] }
                })
                .collect(),
            types: (0..counts[4])
                .map(|n| Type { upright: bytes[at(4, n)], inverted: bytes[at(4, n) + 1] })
                .collect(),
        }
    }
}
