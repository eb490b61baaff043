//! Counts at 0, at their maximum and next to it, and lengths one off.

use super::{
    bytes::{section::*, set_count},
    grow::grow,
    largest::largest,
    mood::Size,
    rng::Rng,
    valid::{any_valid, valid},
};
use crate::image::{HEADER, Image, MAXIMA, NONE, SIZES, kind};

pub(super) fn boundary(rng: &mut Rng) -> Vec<u8> {
    match rng.below(20) {
        0 => {
            let layered = rng.chance(70);
            let bytes = largest(rng, layered).encode();
            if rng.chance(50) { bytes } else { one_off(rng, bytes) }
        }
        1..=3 => {
            let bytes = any_valid(rng).encode();
            one_off(rng, bytes)
        }
        4 => bare_header(rng),
        _ => count_at_boundary(rng),
    }
}

/// A byte too many or too few.
fn one_off(rng: &mut Rng, mut bytes: Vec<u8>) -> Vec<u8> {
    let length = bytes.len() - 1 + 2 * rng.below(2);
    bytes.resize(length, 0);
    bytes
}

/// A good mark and no counts but perhaps one interface, cut or filled up to some length.
fn bare_header(rng: &mut Rng) -> Vec<u8> {
    let mut bytes = b"VIR\x01\x00".to_vec();
    bytes.resize(HEADER, 0);
    set_count(&mut bytes, INTERFACES, rng.below(2));
    let whole = HEADER + SIZES[INTERFACES];
    bytes.resize(rng.pick(&[0, 1, HEADER - 1, HEADER, HEADER + 1, whole - 1, whole, whole + 1]), 0);
    bytes
}

/// One count at 0, 1, next to its maximum, at it or past it, the others small.
fn count_at_boundary(rng: &mut Rng) -> Vec<u8> {
    let section = rng.below(8);
    let max = MAXIMA[section];
    let count = rng.pick(&[0, 1, max - 1, max, max + 1, max + 2]);
    let mut image = if count == 0 { without(rng, section) } else { any_valid(rng) };
    if count > 0 {
        // What a record of the section leans on.
        grow(rng, &mut image, TYPES, 1);
        grow(rng, &mut image, LOCALS, 1);
        grow(rng, &mut image, STAGES, 1);
        if section != LAYERS || !image.layers.is_empty() {
            grow(rng, &mut image, section, count);
        }
    }
    image.encode()
}

/// An image with a section empty, and those that lean on it; valid unless the interfaces are gone.
fn without(rng: &mut Rng, section: usize) -> Image {
    if section == LAYERS {
        return valid(rng, Size::Small, false);
    }
    let mut image = any_valid(rng);
    clear_stages(&mut image);
    match section {
        INTERFACES => image.interfaces.clear(),
        LOCALS | REFS => clear_locals(&mut image),
        TYPES => {
            clear_locals(&mut image);
            image.types.clear();
        }
        _ => {}
    }
    image
}

/// Without stages no layer can be entered, so one root is left of the layers.
fn clear_stages(image: &mut Image) {
    image.stages.clear();
    image.layers.truncate(1);
    image.layers.iter_mut().for_each(|layer| layer.stages.clear());
    for interface in &mut image.interfaces {
        if interface.kind != kind::INSPECT {
            (interface.kind, interface.list) = (kind::MATCH, vec![]);
        }
        interface.layer = if image.layers.is_empty() { NONE } else { 0 };
    }
}

/// After `clear_stages` only Inspects are left to list locals.
fn clear_locals(image: &mut Image) {
    image.locals.clear();
    image.interfaces.iter_mut().for_each(|interface| interface.list.clear());
}
