//! The report of document 01 as a value, and its bytes.

/// How many diagnostics a report keeps.
pub const KEPT: usize = 1024;
const VERSION: u16 = 1;
const HEADER: usize = 24;
const DIAGNOSTIC: usize = 9;

/// A wire's triple, in the order of the Rust's `wires`.
pub type Triple = (bool, bool, bool);

#[derive(Clone, Debug, Default, PartialEq, Eq)]
pub struct Report {
    pub verdict: u8,
    pub takes: u32,
    pub evaluations: u32,
    /// How many diagnostics there are in all.
    pub total: u32,
    pub incoming: Vec<u32>,
    /// For each interface a row with a place for each local.
    pub wires: Vec<Vec<Option<Triple>>>,
    /// The first 1,024.
    pub diagnostics: Vec<Diagnostic>,
}

#[derive(Clone, Copy, Debug, Default, PartialEq, Eq, PartialOrd, Ord)]
pub struct Diagnostic {
    pub kind: u8,
    pub span: u32,
    pub ty: u16,
    pub local: u16,
}

/// The numbers of document 01 for a diagnostic.
pub mod diagnostic {
    pub const INFINITE_LOOP: u8 = 1;
    pub const CANNOT_DROP: u8 = 2;
    pub const UNINITIALIZED_VARIABLE: u8 = 3;
    pub const CANNOT_FORK: u8 = 4;
    pub const VALUE_LATER_USED_HERE: u8 = 5;
}

impl Report {
    /// The bytes of version 1. Panics where a count does not fit its field.
    pub fn encode(&self) -> Vec<u8> {
        let u16_of = |n: usize| u16::try_from(n).expect("a field of 16 bits").to_le_bytes();
        let locals = self.wires.first().map_or(0, Vec::len);
        let mut bytes = b"VAR".to_vec();
        bytes.extend(VERSION.to_le_bytes());
        bytes.extend(u16_of(self.incoming.len()));
        bytes.extend(u16_of(locals));
        bytes.push(self.verdict);
        for n in [self.takes, self.evaluations, self.total] {
            bytes.extend(n.to_le_bytes());
        }
        bytes.extend(u16_of(self.diagnostics.len()));
        bytes.extend(self.incoming.iter().flat_map(|n| n.to_le_bytes()));
        for row in &self.wires {
            bytes.extend(row.chunks(2).map(|pair| half(pair[0]) | half(pair.get(1).copied().flatten()) << 4));
        }
        for d in &self.diagnostics {
            bytes.push(d.kind);
            bytes.extend(d.span.to_le_bytes());
            bytes.extend(d.ty.to_le_bytes());
            bytes.extend(d.local.to_le_bytes());
        }
        bytes
    }

    /// The report with exactly these bytes, if there is one.
    pub fn decode(bytes: &[u8]) -> Option<Report> {
        if bytes.len() < HEADER {
            return None;
        }
        let u16_at = |p: usize| u16::from_le_bytes([bytes[p], bytes[p + 1]]);
        let u32_at = |p: usize| u32::from_le_bytes([bytes[p], bytes[p + 1], bytes[p + 2], bytes[p + 3]]);
        let [interfaces, locals, kept] = [5, 7, 22].map(|p| u16_at(p) as usize);
        let (rows, row) = (HEADER + 4 * interfaces, locals.div_ceil(2));
        let list = rows + interfaces * row;
        if bytes.len() != list + DIAGNOSTIC * kept {
            return None;
        }
        let wire = |i: usize, l: usize| triple(bytes[rows + i * row + l / 2] >> (4 * (l % 2)));
        let diagnostic = |n: usize| {
            let p = list + DIAGNOSTIC * n;
            Diagnostic { kind: bytes[p], span: u32_at(p + 1), ty: u16_at(p + 5), local: u16_at(p + 7) }
        };
        let report = Report {
            verdict: bytes[9],
            takes: u32_at(10),
            evaluations: u32_at(14),
            total: u32_at(18),
            incoming: (0..interfaces).map(|i| u32_at(HEADER + 4 * i)).collect(),
            wires: (0..interfaces).map(|i| (0..locals).map(|l| wire(i, l)).collect()).collect(),
            diagnostics: (0..kept).map(diagnostic).collect(),
        };
        // One test for the mark, the version, the padding, and halves that say something of no wire.
        (report.encode() == bytes).then_some(report)
    }
}

/// Bit 0 says that there is a wire, bits 1 to 3 are the triple.
pub fn half(wire: Option<Triple>) -> u8 {
    wire.map_or(0, |(a, b, c)| 1 | u8::from(a) << 1 | u8::from(b) << 2 | u8::from(c) << 3)
}

pub fn triple(half: u8) -> Option<Triple> {
    let bit = |n: u8| half >> n & 1 == 1;
    bit(0).then(|| (bit(1), bit(2), bit(3)))
}
