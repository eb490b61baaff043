//! Vine's idx.rs, compiled unchanged, and stubs for what else Vine's files use of vine_util.
//!
//! A crate of its own, as in Vine: the files name the macro `new_idx!` by its path, and for a macro out of an
//! included file that works across crates only.

// idx.rs names these crates; the stubs for them stand at this crate's root.
extern crate self as nohash_hasher;
extern crate self as slab;

mod int_map;
mod multi_iter;
mod slabs;

pub mod idx {
    include!(concat!(env!("OUT_DIR"), "/idx.rs"));
}
pub mod nat;

pub use int_map::{IntMap, IntSet, IsEnabled};
pub use slabs::{IntoIter, Iter, IterMut, Slab};

/// Stands in for vine_util's own: every place has been filled.
pub fn unwrap_idx_vec<I: idx::Idx, T>(vec: idx::IdxVec<I, Option<T>>) -> idx::IdxVec<I, T> {
    vec.into_values().map(|value| value.expect("every place is filled")).collect()
}
