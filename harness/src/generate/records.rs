//! Images of a few records, good and bad, all of them.

use super::{
    bytes::{fields, get16, put, section::*, set_count},
    small::Choices,
};
use crate::image::{HEADER, NONE, SIZES};

/// The values that each field of a section's records takes in `exhaustive_records`, in the order of `fields`.
#[rustfmt::skip]
fn record_values(section: usize) -> &'static [&'static [u32]] {
    const N: u32 = NONE as u32;
    const VALUES: [&[&[u32]]; 8] = [
        &[&[0, 1, N], &[0, 1, N], &[0, 1, N]],
        &[&[0, 1, N], &[0, 1, 2, 3, 4, 5, 255], &[0, 1], &[0, 1, N], &[0, 1, 2, 3, N]],
        &[
            &[7], &[0, 1, N], &[0, N], &[0, 1, 2, 5, 7, 8], &[7], &[0, 1], &[0, 1, 2], &[0, 1], &[0, 1], &[0, 1], &[0, 1],
            &[7], &[0, 1, N], &[0, 1, 2],
        ],
        &[&[7], &[0, 1, 0x8000, 0x8001, N], &[0, 15, 16]],
        &[&[0, 15, 16, 255], &[0, 15, 16, 255]],
        &[
            &[0, 1, 2, 3, 4, 5, 6, 7, 8, 9, 10, 11, 12, 13, 14, 15, 16, 17, 18, 19, 20, 21, 255], &[0, 1, 65536],
            &[0, 1, N], &[0, 1], &[0, 1, 2, 3],
        ],
        &[&[0, 1, 0x8000, 0x8001, N], &[0, 1, 2, 3, 4, 5, 6, 7, 8, 255], &[0, 7], &[0, 1, N]],
        &[&[0, 1, N]],
    ];
    VALUES[section]
}

/// The same for an interface that is mostly good, so that the faults of other records show.
const PLAIN_INTERFACE: &[&[u32]] = &[&[0, 0xffff], &[0, 2, 4], &[0], &[0], &[0, 1]];

/// Which records the images of `exhaustive_records` have beside an interface, and whether that one is plain.
const RECORDS: [(&[usize], bool); 12] = [
    (&[], false),
    (&[LAYERS], false),
    (&[INTERFACES], false),
    (&[LOCALS], false),
    (&[TYPES], false),
    (&[REFS], false),
    (&[LAYERS, REFS], false),
    (&[STAGES], true),
    (&[STEPS], true),
    (&[PORTS], true),
    (&[LOCALS, TYPES], true),
    (&[STAGES, REFS], true),
];

/// The bytes of all images of one or two records, and some of three, whose fields take the values of `record_values`:
/// 2,006,334 images.
pub fn exhaustive_records() -> impl Iterator<Item = Vec<u8>> {
    RECORDS.iter().flat_map(|&(others, plain)| {
        let mut sections = vec![INTERFACES];
        sections.extend_from_slice(others);
        sections.sort_unstable();
        let values = |&section: &usize| match section {
            INTERFACES if plain => PLAIN_INTERFACE,
            _ => record_values(section),
        };
        let slots: Vec<&'static [u32]> = sections.iter().flat_map(values).copied().collect();
        let size: usize = slots.iter().map(|values| values.len()).product();
        (0..size).map(move |number| records(&sections, &slots, number))
    })
}

fn records(sections: &[usize], slots: &[&[u32]], number: usize) -> Vec<u8> {
    let mut choices = Choices(number);
    let mut values = slots.iter().map(|values| values[choices.of(values.len())]);
    let mut bytes = b"VIR\x01\x00".to_vec();
    bytes.resize(HEADER, 0);
    for &section in sections {
        let count = get16(&bytes, 5 + 2 * section) as usize + 1;
        set_count(&mut bytes, section, count);
        let start = bytes.len();
        bytes.resize(start + SIZES[section], 0);
        for &(field, width) in fields(section) {
            put(&mut bytes, (start + field, width), values.next().expect("a value for each field"));
        }
    }
    bytes
}
