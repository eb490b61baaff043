//! The bytes of an image whose header is good: where records and fields stand, and changes to them.

use crate::image::{HEADER, SIZES};

/// The numbers of the sections.
pub mod section {
    pub const LAYERS: usize = 0;
    pub const INTERFACES: usize = 1;
    pub const STAGES: usize = 2;
    pub const LOCALS: usize = 3;
    pub const TYPES: usize = 4;
    pub const STEPS: usize = 5;
    pub const PORTS: usize = 6;
    pub const REFS: usize = 7;
}
use section::*;

/// Where the records of an image stand, read from its counts.
#[derive(Clone, Copy, Debug)]
pub struct Layout {
    pub counts: [usize; 8],
    pub starts: [usize; 8],
}

impl Layout {
    pub fn of(bytes: &[u8]) -> Layout {
        let counts: [usize; 8] = std::array::from_fn(|i| get16(bytes, 5 + 2 * i) as usize);
        let mut starts = [HEADER; 8];
        for i in 1..8 {
            starts[i] = starts[i - 1] + SIZES[i - 1] * counts[i - 1];
        }
        Layout { counts, starts }
    }

    pub fn at(&self, section: usize, number: usize) -> usize {
        self.starts[section] + SIZES[section] * number
    }
}

/// The fields of a section's records: where in the record, and how many bytes.
pub fn fields(section: usize) -> &'static [(usize, usize)] {
    #[rustfmt::skip]
    const FIELDS: [&[(usize, usize)]; 8] = [
        &[(0, 2), (2, 2), (4, 2)],
        &[(0, 2), (2, 1), (3, 2), (5, 2), (7, 2)],
        &[
            (0, 4), (4, 2), (6, 2), (8, 1), (9, 4), (13, 2), (15, 2), (17, 2), (19, 2), (21, 2), (23, 2), (25, 2),
            (27, 2), (29, 1),
        ],
        &[(0, 4), (4, 2), (6, 1)],
        &[(0, 1), (1, 1)],
        &[(0, 1), (1, 4), (5, 2), (7, 2), (9, 2)],
        &[(0, 2), (2, 1), (3, 4), (7, 2)],
        &[(0, 2)],
    ];
    FIELDS[section]
}

pub(super) fn get16(bytes: &[u8], at: usize) -> u16 {
    u16::from_le_bytes([bytes[at], bytes[at + 1]])
}

pub(super) fn put16(bytes: &mut [u8], at: usize, value: u16) {
    bytes[at..at + 2].copy_from_slice(&value.to_le_bytes());
}

/// Sets a field of one, two or four bytes.
pub(super) fn put(bytes: &mut [u8], (at, width): (usize, usize), value: u32) {
    bytes[at..at + width].copy_from_slice(&value.to_le_bytes()[..width]);
}

pub(super) fn set_count(bytes: &mut [u8], section: usize, count: usize) {
    put16(bytes, 5 + 2 * section, count as u16);
}

/// Appends a record to a section; for list sections it belongs to no list.
pub(super) fn append(bytes: &mut Vec<u8>, section: usize, record: &[u8]) {
    let layout = Layout::of(bytes);
    let end = layout.at(section, layout.counts[section]);
    bytes.splice(end..end, record.iter().copied());
    set_count(bytes, section, layout.counts[section] + 1);
}

/// Cuts a section down to `count` records.
pub(super) fn cut(bytes: &mut Vec<u8>, section: usize, count: usize) {
    let layout = Layout::of(bytes);
    bytes.drain(layout.at(section, count)..layout.at(section, layout.counts[section]));
    set_count(bytes, section, count);
}

/// Where each list's first and count fields stand: section of the owner, place in its record, section of the entries.
pub(super) const LISTS: [(usize, usize, usize); 6] = [
    (LAYERS, 2, REFS),
    (INTERFACES, 5, REFS),
    (STAGES, 13, PORTS),
    (STAGES, 17, REFS),
    (STAGES, 21, STEPS),
    (STEPS, 7, PORTS),
];
