//! Images that break one rule: by code, and those of the header and of the kind.

use super::{
    bytes::{put16, section::*, set_count},
    layer_faults::layer_fault,
    record_faults::record_fault,
    rng::{Rng, some},
    valid::{any_valid, find},
};
use crate::check::Rule;
use crate::image::{HEADER, Image, MAXIMA, NONE, Port, kind};

/// An image that breaks one rule, and where document 01 puts the fault.
#[derive(Clone, Debug)]
pub struct Planted {
    pub bytes: Vec<u8>,
    pub rule: Rule,
    pub place: usize,
}

/// The rules that an image can break: all but the two that only a call's other arguments decide.
pub fn breakable() -> impl Iterator<Item = Rule> {
    Rule::ALL.iter().copied().filter(|&rule| rule != Rule::Room && rule != Rule::OtherKind)
}

pub(super) fn fault_of_codes(rng: &mut Rng, codes: std::ops::RangeInclusive<u32>) -> Vec<u8> {
    let rules: Vec<Rule> = breakable().filter(|rule| codes.contains(&rule.code())).collect();
    let rule = rng.pick(&rules);
    fault(rule, rng.draw()).bytes
}

/// An image that breaks this rule, and no rule that is judged before it.
pub fn fault(rule: Rule, seed: u64) -> Planted {
    let mut rng = Rng::new(seed);
    let rng = &mut rng;
    let (bytes, place) = match rule.code() {
        2..=5 => (header_fault(rule, rng), 0),
        6 => record_fault(rule, rng),
        7 => (kind_fault(rule, rng).encode(), 0),
        _ => (layer_fault(rule, rng).encode(), 0),
    };
    Planted { bytes, rule, place }
}

fn header_fault(rule: Rule, rng: &mut Rng) -> Vec<u8> {
    let mut bytes = any_valid(rng).encode();
    match rule {
        Rule::Short => bytes.truncate(rng.below(HEADER)),
        Rule::Mark => bytes[rng.below(3)] ^= 1 << rng.below(8),
        Rule::Version => put16(&mut bytes, 3, rng.pick(&[0, 2, 255, 256, 257, NONE])),
        Rule::NoInterface => set_count(&mut bytes, INTERFACES, 0),
        Rule::Maximum => {
            let section = rng.below(8);
            let count = if rng.chance(50) { MAXIMA[section] + 1 } else { NONE as usize };
            set_count(&mut bytes, section, count);
        }
        _ => wrong_length(rng, &mut bytes),
    }
    bytes
}

pub(super) fn wrong_length(rng: &mut Rng, bytes: &mut Vec<u8>) {
    let by = if rng.chance(60) { 1 } else { rng.between(1, 40) };
    if rng.chance(50) {
        bytes.resize(bytes.len() + by, rng.below(256) as u8);
    } else {
        // No shorter than the header, or the answer is 2.
        bytes.truncate((bytes.len() - by.min(bytes.len())).max(HEADER));
    }
}

fn kind_fault(rule: Rule, rng: &mut Rng) -> Image {
    match rule {
        Rule::FlatTransfer => flat_transfer(rng),
        Rule::StageListedByOther => listed_by_other(rng),
        _ => stage_unlisted(rng),
    }
}

fn flat_transfer(rng: &mut Rng) -> Image {
    let (mut image, stage) =
        find(
            rng,
            |image, rng| {
                if image.layers.is_empty() { some(rng, image.stages.len(), |_| true) } else { None }
            },
        );
    image.stages[stage].transfer = rng.below(image.interfaces.len()) as u16;
    if !image.types.is_empty() && rng.chance(50) {
        image.stages[stage].data = Some(Port::default());
    }
    image
}

/// A stage that a second interface lists beside its own, or that its own field does not name.
fn listed_by_other(rng: &mut Rng) -> Image {
    let (mut image, stage) =
        find(
            rng,
            |image, rng| {
                if image.interfaces.len() > 1 { some(rng, image.stages.len(), |_| true) } else { None }
            },
        );
    let own = image.stages[stage].interface as usize;
    let other = some(rng, image.interfaces.len(), |n| n != own).expect("there are two interfaces");
    if rng.chance(50) {
        image.stages[stage].interface = other as u16;
        return image;
    }
    let interface = &mut image.interfaces[other];
    if interface.kind != kind::MATCH {
        let list = if interface.kind == kind::INSPECT { vec![] } else { interface.list.clone() };
        (interface.kind, interface.list) = (kind::MATCH, list);
        interface.list.retain(|&s| s != NONE);
    }
    let at = rng.between(0, interface.list.len());
    interface.list.insert(at, stage as u16);
    image
}

/// A stage that no interface lists.
fn stage_unlisted(rng: &mut Rng) -> Image {
    let (mut image, stage) = find(rng, |image, rng| some(rng, image.stages.len(), |_| true));
    let interface = &mut image.interfaces[image.stages[stage].interface as usize];
    interface.kind = kind::MATCH;
    interface.list.retain(|&s| s != NONE && s as usize != stage);
    image
}
