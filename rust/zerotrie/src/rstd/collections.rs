//! Collections with an allocator. What only reads is Rust's own, by `Deref`. The growth of a `VecDeque` returns an error if there is
//! no memory; that of a `BTreeMap` or `BTreeSet` ends the program, as Rust's does.
use super::alloc::{AllocError, Allocator, Global};
use super::vec::Vec;
use alloc::collections as own;
use core::marker::PhantomData;

#[derive(Clone, Debug, PartialEq, Eq)]
pub struct BTreeMap<K, V, A = Global> {
    pairs: own::BTreeMap<K, V>,
    alloc: PhantomData<A>,
}
super::over!(BTreeMap<K, V>, pairs, own::BTreeMap<K, V>);

impl<K: Ord, V, A> BTreeMap<K, V, A> {
    pub fn new(_: A) -> Self {
        BTreeMap { pairs: own::BTreeMap::new(), alloc: PhantomData }
    }

    pub fn from_iter<I: IntoIterator<Item = (K, V)>>(_: A, pairs: I) -> Result<Self, AllocError> {
        Ok(BTreeMap { pairs: pairs.into_iter().collect(), alloc: PhantomData })
    }

    pub fn from_array<const N: usize>(alloc: A, pairs: [(K, V); N]) -> Result<Self, AllocError> {
        BTreeMap::from_iter(alloc, pairs)
    }

    pub fn insert(&mut self, key: K, value: V) -> Result<Option<V>, AllocError> {
        Ok(self.pairs.insert(key, value))
    }

    /// Returns Rust's own `BTreeMap`.
    pub fn into_inner(self) -> own::BTreeMap<K, V> {
        self.pairs
    }
}

impl<K, V> From<own::BTreeMap<K, V>> for BTreeMap<K, V> {
    fn from(pairs: own::BTreeMap<K, V>) -> Self {
        BTreeMap { pairs, alloc: PhantomData }
    }
}

#[derive(Clone, Debug, PartialEq, Eq)]
pub struct BTreeSet<K, A = Global> {
    items: own::BTreeSet<K>,
    alloc: PhantomData<A>,
}
super::over!(BTreeSet<K>, items, own::BTreeSet<K>);

impl<K: Ord, A> BTreeSet<K, A> {
    pub fn new(_: A) -> Self {
        BTreeSet { items: own::BTreeSet::new(), alloc: PhantomData }
    }
    pub fn insert(&mut self, item: K) -> Result<bool, AllocError> {
        Ok(self.items.insert(item))
    }
}

#[derive(Clone, Debug)]
pub struct VecDeque<T, A = Global> {
    items: own::VecDeque<T>,
    alloc: A,
}
super::over!(VecDeque<T>, items, own::VecDeque<T>);

impl<T, A: Allocator> VecDeque<T, A> {
    pub fn new(alloc: A) -> Self {
        VecDeque { items: own::VecDeque::new(), alloc }
    }
    pub fn from_vec(vec: Vec<T, A>) -> Self {
        VecDeque { items: vec.items.into(), alloc: vec.alloc }
    }
    pub fn into_vec(self) -> Vec<T, A> {
        Vec { items: self.items.into(), alloc: self.alloc }
    }
    pub fn reserve(&mut self, more: usize) -> Result<(), AllocError> {
        Ok(self.items.try_reserve(more)?)
    }

    pub fn push_front(&mut self, item: T) -> Result<(), AllocError> {
        self.reserve(1)?;
        self.items.push_front(item);
        Ok(())
    }

    pub fn allocator(&self) -> &A {
        &self.alloc
    }
    pub fn push_front_reserved(&mut self, item: T) {
        self.items.push_front(item);
    }
}
