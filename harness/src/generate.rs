//! Images for tests: a family and a seed give the same bytes on every machine.
//!
//! Valid images are built as values and encoded, so they are accepted by construction. A fault is planted in a valid
//! image with everything before it right, so that one rule decides the answer. What nobody writes by hand (open wires
//! at a jump out of several layers, an unreached Inspect, an interface that lists a stage twice) is made common.

mod boundaries;
mod build;
mod builder;
mod bytes;
mod changes;
mod damage;
mod deep;
mod excess;
mod faults;
mod fill;
mod grow;
mod heavy;
mod largest;
mod layer_faults;
mod mood;
mod parts;
mod picks;
mod record_faults;
mod records;
mod rng;
mod small;
mod valid;

pub use bytes::{Layout, fields, section};
pub use changes::{byte_changes, field_changes};
pub use damage::boundary_values;
pub use deep::deepest;
pub use excess::normalised_counts;
pub use faults::{Planted, breakable, fault};
pub use grow::grow;
pub use largest::largest;
pub use mood::Size;
pub use records::exhaustive_records;
pub use rng::Rng;
pub use small::{SMALL, Set, exhaustive_small};
pub use valid::valid;

use boundaries::boundary;
use damage::{damaged, random};
use excess::excess;
use faults::fault_of_codes;
use heavy::heavy;
use valid::{aimed_flat, aimed_layered};

#[derive(Clone, Copy, Debug, PartialEq, Eq, Hash)]
pub enum Family {
    /// Accepted, kind 1, a few records.
    FlatSmall,
    /// Accepted, kind 1, up to the maxima.
    FlatLarge,
    /// Accepted, kind 1: one or two locals, all interfaces reached but some Inspects, steps that meet on the locals.
    FlatAimed,
    /// Accepted, kind 1: incoming past 16 bits, diagnostics around and past 1,024, or as many relations as there can be;
    /// one in four is light: the same shape with small counts, incoming up to just past 8 bits.
    FlatHeavy,
    /// Accepted, kind 2, a few records.
    LayeredSmall,
    /// Accepted, kind 2, up to the maxima.
    LayeredLarge,
    /// Accepted, kind 2: layers nested three to six deep, with wires left open where a step jumps or enters.
    LayeredAimed,
    /// Another family's image with one to three changes that know nothing of the rules.
    Damaged,
    /// Random bytes, some behind a good header.
    Random,
    /// Codes 2 to 5, one rule broken.
    HeaderFault,
    /// Code 6, one rule broken.
    RecordFault,
    /// Code 7, one rule broken.
    KindFault,
    /// Code 8, one rule broken.
    LayerFault,
    /// A count at 0, next to its maximum, at it or past it; the largest image; a length one off.
    Boundary,
    /// Accepted, kind 2, and the normalised image is at a maximum, just over it or far over it.
    Excess,
}

impl Family {
    pub const ALL: [Family; 15] = [
        Family::FlatSmall,
        Family::FlatLarge,
        Family::FlatAimed,
        Family::FlatHeavy,
        Family::LayeredSmall,
        Family::LayeredLarge,
        Family::LayeredAimed,
        Family::Damaged,
        Family::Random,
        Family::HeaderFault,
        Family::RecordFault,
        Family::KindFault,
        Family::LayerFault,
        Family::Boundary,
        Family::Excess,
    ];
}

/// The image that a family has for a seed.
pub fn image(family: Family, seed: u64) -> Vec<u8> {
    let mut rng = Rng::new(seed);
    match family {
        Family::FlatSmall => valid(&mut rng, Size::Small, false).encode(),
        Family::FlatLarge => valid(&mut rng, Size::Large, false).encode(),
        Family::FlatAimed => aimed_flat(&mut rng).encode(),
        Family::FlatHeavy => heavy(&mut rng).encode(),
        Family::LayeredSmall => valid(&mut rng, Size::Small, true).encode(),
        Family::LayeredLarge => valid(&mut rng, Size::Large, true).encode(),
        Family::LayeredAimed => aimed_layered(&mut rng).encode(),
        Family::Damaged => damaged(&mut rng),
        Family::Random => random(&mut rng),
        Family::HeaderFault => fault_of_codes(&mut rng, 2..=5),
        Family::RecordFault => fault_of_codes(&mut rng, 6..=6),
        Family::KindFault => fault_of_codes(&mut rng, 7..=7),
        Family::LayerFault => fault_of_codes(&mut rng, 8..=8),
        Family::Boundary => boundary(&mut rng),
        Family::Excess => excess(&mut rng).encode(),
    }
}
