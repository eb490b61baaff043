//! Changes that know nothing of the rules, and noise.

use super::{
    bytes::{LISTS, Layout, append, cut, fields, get16, put, put16, section::*, set_count},
    faults::{fault_of_codes, wrong_length},
    rng::{Rng, some},
    valid::any_valid,
};
use crate::image::{HEADER, NONE, SIZES};

pub(super) fn damaged(rng: &mut Rng) -> Vec<u8> {
    let mut bytes = match rng.below(10) {
        0 => fault_of_codes(rng, 6..=8),
        _ => any_valid(rng).encode(),
    };
    for _ in 0..rng.pick(&[1, 1, 1, 2, 3]) {
        damage(rng, &mut bytes);
    }
    bytes
}

fn damage(rng: &mut Rng, bytes: &mut Vec<u8>) {
    let length = bytes.len();
    match rng.below(8) {
        0 if length > 0 => bytes[rng.below(length)] = rng.draw() as u8,
        1 if length > 0 => bytes[rng.below(length)] ^= 1 << rng.below(8),
        2 => wrong_length(rng, bytes),
        3 => {
            let at = rng.between(0, length);
            bytes.splice(at..at, [rng.draw() as u8]);
        }
        4 if whole(bytes) => exchange_lists(rng, bytes),
        5 if whole(bytes) => change_count(rng, bytes),
        _ if whole(bytes) => boundary_field(rng, bytes),
        _ => bytes.extend(b"VIR"),
    }
}

/// Whether the counts and the length agree, so that fields can be found.
fn whole(bytes: &[u8]) -> bool {
    bytes.len() >= HEADER && {
        let layout = Layout::of(bytes);
        layout.at(REFS, layout.counts[REFS]) == bytes.len()
    }
}

/// A record of a section that has one, and its place.
fn some_record(rng: &mut Rng, bytes: &[u8]) -> Option<(usize, usize)> {
    let layout = Layout::of(bytes);
    let section = some(rng, 8, |s| layout.counts[s] > 0)?;
    Some((section, layout.at(section, rng.below(layout.counts[section]))))
}

/// The values at which a rule may turn, for any field.
pub fn boundary_values(counts: &[usize; 8]) -> Vec<u32> {
    let mut values =
        vec![0, 1, 2, 3, 4, 5, 6, 7, 8, 15, 16, 20, 21, 127, 255, 256, 0x7fff, 0x8000, 0xfffe, 0xffff];
    values.extend([0x1_0000, 0xffff_ffff]);
    for &count in counts {
        let count = count as u32;
        values.extend([count.saturating_sub(1), count, count + 1, count | 0x8000]);
    }
    values.sort_unstable();
    values.dedup();
    values
}

fn boundary_field(rng: &mut Rng, bytes: &mut [u8]) {
    if let Some((section, place)) = some_record(rng, bytes) {
        let (field, width) = rng.pick(fields(section));
        let value = rng.pick(&boundary_values(&Layout::of(bytes).counts));
        put(bytes, (place + field, width), value);
    }
}

/// Two records of one section exchange their lists' first and count fields.
fn exchange_lists(rng: &mut Rng, bytes: &mut [u8]) {
    let (owner, field, _) = rng.pick(&LISTS);
    let layout = Layout::of(bytes);
    if layout.counts[owner] > 1 {
        let one = layout.at(owner, rng.below(layout.counts[owner])) + field;
        let two = layout.at(owner, rng.below(layout.counts[owner])) + field;
        for i in 0..4 {
            bytes.swap(one + i, two + i);
        }
    }
}

/// A count of the header or of a list, one up or down, with or without the records to match.
fn change_count(rng: &mut Rng, bytes: &mut Vec<u8>) {
    let layout = Layout::of(bytes);
    let section = rng.below(8);
    let count = layout.counts[section];
    match rng.below(4) {
        0 if count > 0 => cut(bytes, section, count - 1),
        1 => append(bytes, section, &[0; 30][..SIZES[section]]),
        2 => set_count(bytes, section, if rng.chance(50) { count + 1 } else { count.saturating_sub(1) }),
        _ => {
            let (owner, field, _) = rng.pick(&LISTS);
            if layout.counts[owner] > 0 {
                let at = layout.at(owner, rng.below(layout.counts[owner])) + field + 2;
                let by = if rng.chance(50) { 1 } else { NONE };
                let value = get16(bytes, at).wrapping_add(by);
                put16(bytes, at, value);
            }
        }
    }
}

pub(super) fn random(rng: &mut Rng) -> Vec<u8> {
    let noise = |rng: &mut Rng, length: usize| (0..length).map(|_| rng.draw() as u8).collect::<Vec<u8>>();
    match rng.below(4) {
        0 => {
            let length = rng.between(0, 80);
            noise(rng, length)
        }
        1 => {
            let length = rng.between(0, 60);
            let mut bytes = noise(rng, length);
            bytes.splice(0..0, *b"VIR\x01\x00");
            bytes
        }
        _ => {
            let counts: [usize; 8] =
                std::array::from_fn(|i| if i == 1 { rng.between(1, 2) } else { rng.below(3) });
            let low = rng.chance(70);
            let body = counts.iter().zip(SIZES).map(|(n, size)| n * size).sum();
            let mut bytes = b"VIR\x01\x00".to_vec();
            bytes.extend(counts.iter().flat_map(|&n| (n as u16).to_le_bytes()));
            // Low bytes and pairs of 255 come past more rules than even noise does.
            bytes.extend((0..body).map(|_| match rng.below(12) {
                _ if !low => rng.draw() as u8,
                0 => 255,
                1 => rng.below(4) as u8,
                _ => 0,
            }));
            bytes
        }
    }
}
