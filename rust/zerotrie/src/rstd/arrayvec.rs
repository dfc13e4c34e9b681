//! A vector in an array.
use core::ops;

#[derive(Clone, Copy, Debug)]
pub struct ArrayVec<T, const N: usize> {
    items: [T; N],
    count: usize,
}

impl<T: Copy + Default, const N: usize> ArrayVec<T, N> {
    pub fn new() -> Self {
        ArrayVec { items: [T::default(); N], count: 0 }
    }

    pub fn is_full(&self) -> bool {
        self.count == N
    }

    /// Panics if the array is full.
    pub fn push(&mut self, item: T) {
        self.items[self.count] = item;
        self.count += 1;
    }

    pub fn truncate(&mut self, count: usize) {
        self.count = self.count.min(count);
    }
    pub fn as_slice(&self) -> &[T] {
        self
    }
    pub fn as_mut_slice(&mut self) -> &mut [T] {
        self
    }
}

impl<T, const N: usize> ops::Deref for ArrayVec<T, N> {
    type Target = [T];
    fn deref(&self) -> &[T] {
        &self.items[..self.count]
    }
}

impl<T, const N: usize> ops::DerefMut for ArrayVec<T, N> {
    fn deref_mut(&mut self) -> &mut [T] {
        &mut self.items[..self.count]
    }
}
