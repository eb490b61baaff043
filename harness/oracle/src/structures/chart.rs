//! Stands in for Vine's chart: the ids, and an empty table wherever types.rs looks something up.

use vine_util::{idx::IdxVec, new_idx};

use crate::structures::ast::Ident;

new_idx!(pub ConcreteConstId);
new_idx!(pub ConcreteFnId);
new_idx!(pub DefId);
new_idx!(pub EnumId);
new_idx!(pub GenericsId);
new_idx!(pub OpaqueTypeId);
new_idx!(pub StructId);
new_idx!(pub TraitFnId);
new_idx!(pub TraitId);
new_idx!(pub UnionId);
new_idx!(pub VariantId);

#[derive(Debug, Clone, Copy, PartialEq, Eq)]
pub enum FnId {
    Concrete(ConcreteFnId),
    Abstract(TraitId, TraitFnId),
}

#[derive(Debug, Default)]
pub struct Chart {
    pub builtins: Builtins,
    pub concrete_consts: IdxVec<ConcreteConstId, Named>,
    pub concrete_fns: IdxVec<ConcreteFnId, Named>,
    pub defs: IdxVec<DefId, Def>,
    pub enums: IdxVec<EnumId, Named>,
    pub opaque_types: IdxVec<OpaqueTypeId, Named>,
    pub structs: IdxVec<StructId, Named>,
    pub traits: IdxVec<TraitId, Trait>,
    pub unions: IdxVec<UnionId, Named>,
}

#[derive(Debug, Default)]
pub struct Builtins {
    pub fn_: Option<TraitId>,
}

#[derive(Debug)]
pub struct Def {
    pub path: String,
}

#[derive(Debug)]
pub struct Named {
    pub name: Ident,
    pub def: DefId,
    pub self_dual: bool,
}

#[derive(Debug)]
pub struct Trait {
    pub name: Ident,
    pub def: DefId,
    pub fns: IdxVec<TraitFnId, Named>,
}
