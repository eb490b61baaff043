//! Stands in for Vine's signatures: what types.rs reads of a function's, and nothing else.

use crate::structures::{ast::Ident, types::Type};

#[derive(Debug, Clone)]
pub struct FnSig {
    pub names: Vec<Option<Ident>>,
    pub param_tys: Vec<Type>,
    pub ret_ty: Type,
}

#[derive(Debug, Default)]
pub struct Signatures;
