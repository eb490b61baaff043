//! Stands in for slab, which idx.rs wraps and none of the other files uses: nothing is ever removed.

use std::{
    iter::Enumerate,
    ops::{Index, IndexMut},
    slice, vec,
};

#[derive(Clone)]
pub struct Slab<T>(Vec<T>);

pub type IntoIter<T> = Enumerate<vec::IntoIter<T>>;
pub type Iter<'a, T> = Enumerate<slice::Iter<'a, T>>;
pub type IterMut<'a, T> = Enumerate<slice::IterMut<'a, T>>;

impl<T> Slab<T> {
    pub const fn new() -> Self {
        Slab(Vec::new())
    }

    pub fn len(&self) -> usize {
        self.0.len()
    }

    pub fn is_empty(&self) -> bool {
        self.0.is_empty()
    }

    pub fn insert(&mut self, value: T) -> usize {
        self.0.push(value);
        self.0.len() - 1
    }

    pub fn remove(&mut self, _: usize) -> T {
        unreachable!("no slab is in use")
    }

    pub fn get(&self, index: usize) -> Option<&T> {
        self.0.get(index)
    }

    pub fn get_mut(&mut self, index: usize) -> Option<&mut T> {
        self.0.get_mut(index)
    }

    pub fn iter(&self) -> Iter<'_, T> {
        self.0.iter().enumerate()
    }

    pub fn iter_mut(&mut self) -> IterMut<'_, T> {
        self.0.iter_mut().enumerate()
    }

    pub fn clear(&mut self) {
        self.0.clear();
    }
}

impl<T> Default for Slab<T> {
    fn default() -> Self {
        Self::new()
    }
}

impl<T> Index<usize> for Slab<T> {
    type Output = T;
    fn index(&self, index: usize) -> &T {
        &self.0[index]
    }
}

impl<T> IndexMut<usize> for Slab<T> {
    fn index_mut(&mut self, index: usize) -> &mut T {
        &mut self.0[index]
    }
}

impl<T> IntoIterator for Slab<T> {
    type Item = (usize, T);
    type IntoIter = IntoIter<T>;
    fn into_iter(self) -> Self::IntoIter {
        self.0.into_iter().enumerate()
    }
}
