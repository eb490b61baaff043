//! Every image that differs from a given one in one byte, or in one field.

use super::{
    bytes::{Layout, fields, put},
    damage::boundary_values,
};

/// Every image that differs from this one in one byte: 255 for each byte.
pub fn byte_changes(image: &[u8]) -> impl Iterator<Item = Vec<u8>> {
    (0..image.len()).flat_map(move |at| {
        (1..=255u8).map(move |by| {
            let mut bytes = image.to_vec();
            bytes[at] ^= by;
            bytes
        })
    })
}

/// Every image in which one field of one record has a value at which some rule may turn. The image is whole.
pub fn field_changes(image: &[u8]) -> impl Iterator<Item = Vec<u8>> {
    let layout = Layout::of(image);
    let values = boundary_values(&layout.counts);
    let places = (0..8).flat_map(move |section| {
        let numbers = 0..layout.counts[section];
        numbers.flat_map(move |n| {
            fields(section).iter().map(move |&(at, width)| (layout.at(section, n) + at, width))
        })
    });
    places.flat_map(move |field| {
        let changed = |&value: &u32| {
            let mut bytes = image.to_vec();
            put(&mut bytes, field, value);
            bytes
        };
        values.iter().map(changed).collect::<Vec<_>>()
    })
}
