//! Stands in for Vine's resolutions: relations have no numbers, since only whether one exists counts.

use crate::{
    components::finder::TirImpl,
    structures::chart::{Chart, DefId, GenericsId},
};

#[derive(Debug, Clone, Copy, PartialEq, Eq)]
pub struct ConstRelId;

#[derive(Debug, Clone, Copy, PartialEq, Eq)]
pub struct FnRelId;

#[derive(Debug, Clone, Default)]
pub struct Rels;

impl Rels {
    pub fn fork_rel(&mut self, _: &Chart, _: TirImpl) -> FnRelId {
        FnRelId
    }

    pub fn drop_rel(&mut self, _: &Chart, _: TirImpl) -> FnRelId {
        FnRelId
    }
}

/// What the normalizer hands on to the Finder.
#[derive(Debug, Default)]
pub struct Fragment {
    pub def: DefId,
    pub generics: GenericsId,
}
