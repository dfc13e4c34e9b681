//! `Vec` with an allocator, whose growth returns an error if there is no memory. The rest is Rust's own, by `Deref`.
use super::alloc::{AllocError, AllocFailed, Allocator, Global};
use super::boxed::BoxedSlice;
pub use alloc::vec::IntoIter;
use core::{borrow::Borrow, cmp::Ordering, fmt};

type Own<T> = alloc::vec::Vec<T>;

#[derive(Clone, Default)]
pub struct Vec<T, A = Global> {
    pub(super) items: Own<T>,
    pub(super) alloc: A,
}
super::over!(Vec<T>, items, Own<T>);

impl<T, A: Allocator> Vec<T, A> {
    pub fn new(alloc: A) -> Self {
        Vec { items: Own::new(), alloc }
    }

    pub fn with_capacity(alloc: A, count: usize) -> Result<Self, AllocError> {
        let mut items = Own::new();
        items.try_reserve_exact(count)?;
        Ok(Vec { items, alloc })
    }

    pub fn from_array<const N: usize>(alloc: A, items: [T; N]) -> Result<Self, AllocError> {
        items.into_iter().collect_in(alloc)
    }

    #[inline]
    pub fn push(&mut self, item: T) -> Result<(), AllocFailed<T>> {
        if self.items.len() == self.items.capacity() && self.items.try_reserve(1).is_err() {
            return Err(AllocFailed(item));
        }
        self.items.push(item);
        Ok(())
    }

    pub fn push_reserved(&mut self, item: T) {
        self.items.push(item);
    }
    pub fn reserve(&mut self, more: usize) -> Result<(), AllocError> {
        Ok(self.items.try_reserve(more)?)
    }
    pub fn reserve_exact(&mut self, more: usize) -> Result<(), AllocError> {
        Ok(self.items.try_reserve_exact(more)?)
    }
    pub fn insert(&mut self, index: usize, item: T) -> Result<(), AllocError> {
        self.reserve(1)?;
        self.items.insert(index, item);
        Ok(())
    }
    pub fn allocator(&self) -> &A {
        &self.alloc
    }
    pub fn into_boxed_slice(self) -> BoxedSlice<T> {
        BoxedSlice(self.items.into_boxed_slice())
    }

    /// Returns Rust's own `Vec`.
    pub fn into_inner(self) -> Own<T> {
        self.items
    }
}

impl<T: Clone, A: Allocator> Vec<T, A> {
    pub fn from_slice(alloc: A, items: &[T]) -> Result<Self, AllocError> {
        let mut vec = Vec::with_capacity(alloc, items.len())?;
        vec.items.extend_from_slice(items);
        Ok(vec)
    }

    /// Returns so many of an item.
    pub fn filled(alloc: A, item: T, count: usize) -> Result<Self, AllocError> {
        let mut vec = Vec::with_capacity(alloc, count)?;
        vec.items.resize(count, item);
        Ok(vec)
    }

    pub fn extend_from_slice(&mut self, items: &[T]) -> Result<(), AllocError> {
        self.items.try_reserve(items.len())?;
        self.items.extend_from_slice(items);
        Ok(())
    }

    pub fn resize(&mut self, count: usize, item: T) -> Result<(), AllocError> {
        self.items.try_reserve(count.saturating_sub(self.items.len()))?;
        self.items.resize(count, item);
        Ok(())
    }
}

impl<T, A> Borrow<[T]> for Vec<T, A> {
    fn borrow(&self) -> &[T] {
        &self.items
    }
}

impl<T, A> AsRef<[T]> for Vec<T, A> {
    fn as_ref(&self) -> &[T] {
        &self.items
    }
}

impl<T: PartialEq, A> PartialEq for Vec<T, A> {
    fn eq(&self, other: &Self) -> bool {
        self.items == other.items
    }
}

impl<T: Eq, A> Eq for Vec<T, A> {}

impl<T: Ord, A> PartialOrd for Vec<T, A> {
    fn partial_cmp(&self, other: &Self) -> Option<Ordering> {
        Some(self.cmp(other))
    }
}

impl<T: Ord, A> Ord for Vec<T, A> {
    fn cmp(&self, other: &Self) -> Ordering {
        self.items.cmp(&other.items)
    }
}

impl<T: fmt::Debug, A> fmt::Debug for Vec<T, A> {
    fn fmt(&self, f: &mut fmt::Formatter<'_>) -> fmt::Result {
        self.items.fmt(f)
    }
}

impl<T> From<Own<T>> for Vec<T> {
    fn from(items: Own<T>) -> Self {
        Vec { items, alloc: Global }
    }
}

impl<T> From<Vec<T>> for Own<T> {
    fn from(vec: Vec<T>) -> Self {
        vec.items
    }
}

#[cfg(feature = "__std")]
impl std::io::Write for Vec<u8> {
    fn write(&mut self, bytes: &[u8]) -> std::io::Result<usize> {
        self.extend_from_slice(bytes)?;
        Ok(bytes.len())
    }

    fn flush(&mut self) -> std::io::Result<()> {
        Ok(())
    }
}

/// `collect` into a `Vec`.
pub trait CollectIn: Iterator + Sized {
    fn collect_in<A: Allocator>(self, alloc: A) -> Result<Vec<Self::Item, A>, AllocError> {
        let mut vec = Vec::with_capacity(alloc, self.size_hint().0)?;
        for item in self {
            vec.push(item)?;
        }
        Ok(vec)
    }
}

impl<I: Iterator> CollectIn for I {}
