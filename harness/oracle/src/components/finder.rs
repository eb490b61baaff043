//! Stands in for Vine's Finder: flex flags come from the image's type table.

use std::panic;

use crate::structures::{
    ast::Span,
    chart::{Chart, DefId, GenericsId},
    diag::{Diags, ErrorGuaranteed},
    signatures::Signatures,
    types::{Inverted, Type, Types, probe},
};

/// The type table, and how many locals may still be asked for.
#[derive(Debug, Clone, Default)]
pub struct FinderCache {
    /// The flex flags of each type, upright and inverted.
    pub flex: Vec<[FlexImpls; 2]>,
    /// Only a new local asks for flex flags, so this bounds what normalising can take.
    pub room: usize,
}

/// What is unwound with, without a message, when the room is used up.
pub struct NoRoom;

#[derive(Debug, Clone, Copy, Default)]
pub struct FlexImpls {
    pub inv: Inverted,
    pub fork: Option<TirImpl>,
    pub drop: Option<TirImpl>,
    pub self_inverse: bool,
}

/// Stands in for `TirImpl`: that there is an implementation is all that counts.
#[derive(Debug, Clone, Copy)]
pub struct TirImpl;

pub struct Finder<'a> {
    cache: &'a mut FinderCache,
}

impl<'a> Finder<'a> {
    pub fn new(
        _: &Chart,
        _: &Signatures,
        _: &mut Diags,
        cache: &'a mut FinderCache,
        _: DefId,
        _: GenericsId,
        _: Span,
    ) -> Self {
        Finder { cache }
    }

    pub fn find_flex(&mut self, _: &Types, ty: Type) -> Result<FlexImpls, ErrorGuaranteed> {
        match self.cache.room.checked_sub(1) {
            Some(room) => self.cache.room = room,
            None => panic::resume_unwind(Box::new(NoRoom)),
        }
        let handle = probe::handle(ty);
        Ok(self.cache.flex[handle.number][usize::from(handle.inverse)])
    }
}
