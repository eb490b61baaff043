//! Types as the image has them: a number and whether it is the inverse.
//!
//! The normalizer never looks into a type, so the number of the image's port rides in the upper bits of the
//! index. It comes out with the port, wherever the normalizer put it.

use super::{Inverted, Type, TypeIdx, Types};
use crate::structures::ast::Span;

/// A type's number has ten bits: there are at most 1,024 types.
const NUMBERS: usize = 1024;

#[derive(Debug, Clone, Copy, PartialEq, Eq)]
pub struct Handle {
    pub number: usize,
    pub inverse: bool,
    /// The port that the type came with, if any.
    pub port: Option<usize>,
}

pub fn handle(ty: Type) -> Handle {
    let TypeIdx(n) = ty.idx();
    Handle { number: n % NUMBERS, inverse: ty.inv().0, port: (n / NUMBERS).checked_sub(1) }
}

pub fn type_of(handle: Handle) -> Type {
    let riding = handle.port.map_or(0, |port| port + 1);
    Type::new(Inverted(handle.inverse), TypeIdx(handle.number + NUMBERS * riding))
}

/// One type variable for each type of the image; `Types::show` then prints its number.
pub fn variables(count: usize) -> Types {
    let mut types = Types::default();
    for _ in 0..count {
        types.new_var(Span::NONE);
    }
    types
}

/// The handle that `Types::show` printed.
pub fn shown(ty: &str) -> Handle {
    let upright = ty.trim_start_matches('~');
    let number = upright.strip_prefix('?').and_then(|n| n.parse().ok()).expect("a type variable");
    Handle { number, inverse: upright.len() < ty.len(), port: None }
}
