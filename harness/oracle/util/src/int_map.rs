//! Stands in for nohash_hasher: maps whose hash of a number is the number itself.

use std::{
    collections::{HashMap, HashSet},
    hash::{BuildHasherDefault, Hasher},
};

pub trait IsEnabled {}
impl IsEnabled for usize {}

pub type IntMap<K, V> = HashMap<K, V, BuildHasherDefault<Identity>>;
pub type IntSet<K> = HashSet<K, BuildHasherDefault<Identity>>;

#[derive(Default)]
pub struct Identity(u64);

impl Hasher for Identity {
    fn write(&mut self, _: &[u8]) {
        unreachable!("a key is one number")
    }

    fn write_usize(&mut self, n: usize) {
        self.0 = n as u64;
    }

    fn finish(&self) -> u64 {
        self.0
    }
}
