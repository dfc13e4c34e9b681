// Made from crates/zerotrie_build/src/store.rt by rust/make: edit that.
//! Lists of bytes that grow at their front.

use crate::rstd::prelude::*;
use crate::rstd::alloc::{AllocError, Global};
use crate::rstd::collections::VecDeque;

/// A list of bytes that grows at its front.
///
/// ```
/// # use zerotrie::{rstd::examples::*, zerotrie_build::*, zerotrie_base::*};
/// let mut store: VecDeque<u8> = TrieBuilderStore::atbs_new_empty(Global);
/// store.atbs_extend_front(b"bc")?;
/// store.atbs_push_front(b'a')?;
/// assert_eq!(store.atbs_to_bytes(Global)?.as_slice(), b"abc".as_slice());
/// # Ok::<(), Fail>(())
/// ```
///
/// A call that grows fails only if memory runs out, and the list is then as it was.
pub trait TrieBuilderStore: Sized {
    /// Returns a store with no bytes. Does not allocate.
    fn atbs_new_empty(alloc: Global) -> Self;

    /// Returns how many bytes there are.
    fn atbs_len(&self) -> usize;

    /// Puts one byte in front.
    fn atbs_push_front(&mut self, byte: u8) -> Result<(), AllocError>;

    /// Puts bytes in front, in the order that they have.
    fn atbs_extend_front(&mut self, bytes: &[u8]) -> Result<(), AllocError>;

    /// Returns a copy of the bytes.
    fn atbs_to_bytes(&self, alloc: Global) -> Result<Vec<u8>, AllocError>;

    /// Sets these bits in the byte of number `index`, counted from 0 at the front.
    fn atbs_bitor_assign(&mut self, index: usize, bits: u8);

    /// Sets these bytes from number `index` on, where all bytes are zeros, from the first to the
    /// last. A store whose bytes lie together can copy them at once, as `VecDeque` does.
    ///
    /// ```
    /// # use zerotrie::{rstd::examples::*, zerotrie_build::*, zerotrie_base::*};
    /// let mut store: VecDeque<u8> = TrieBuilderStore::atbs_new_empty(Global);
    /// store.atbs_prepend_n_zeros(4)?;
    /// store.atbs_set_zeros(1, b"bc");
    /// assert_eq!(store.atbs_to_bytes(Global)?.as_slice(), b"\0bc\0".as_slice());
    /// # Ok::<(), Fail>(())
    /// ```
    fn atbs_set_zeros(&mut self, index: usize, bytes: &[u8]) {
        for i in 0..bytes.len() {
            self.atbs_bitor_assign(index + i, bytes[i]);
        }
    }

    /// Removes the first byte and returns it.
    fn atbs_pop_front(&mut self) -> u8;

    /// Puts `count` zeros in front.
    fn atbs_prepend_n_zeros(&mut self, count: usize) -> Result<(), AllocError>;

    /// Cuts the front into ranges of these lengths, in bytes, and arranges them in this order: the
    /// range of number `order[0]` comes first. What lies after the ranges stays.
    ///
    /// ```
    /// # use zerotrie::{rstd::examples::*, zerotrie_build::*, zerotrie_base::*};
    /// let mut store: VecDeque<u8> = TrieBuilderStore::atbs_new_empty(Global);
    /// store.atbs_extend_front(b"abcdefghijklmn--")?;
    /// store.atbs_permute_front(&[2, 5, 7], &[0, 2, 1])?;
    /// assert_eq!(store.atbs_to_bytes(Global)?.as_slice(), b"abhijklmncdefg--".as_slice());
    /// # Ok::<(), Fail>(())
    /// ```
    fn atbs_permute_front(&mut self, lengths: &[usize], order: &[usize]) -> Result<(), AllocError>;
}

/// Returns the sum of the lengths before the range of number `index`.
fn start_of(lengths: &[usize], index: usize) -> usize {
    let mut start = 0;
    for i in 0..index {
        start += lengths[i];
    }
    start
}

/// Returns the bytes in the range of number `index`.
fn range_of<'a>(bytes: &'a [u8], lengths: &[usize], index: usize) -> &'a [u8] {
    let start = start_of(lengths, index);
    &bytes[start..start + lengths[index]]
}

/// Returns the ranges in this order.
fn ranges_in_order(
    alloc: Global,
    bytes: &[u8],
    lengths: &[usize],
    order: &[usize],
) -> Result<Vec<u8>, AllocError> {
    let mut out = Vec::new(alloc);
    for index in order {
        out.extend_from_slice(range_of(bytes, lengths, *index))?;
    }
    Ok(out)
}

/// Puts bytes over the front.
fn overwrite_front(store: &mut VecDeque<u8>, bytes: &[u8]) {
    for i in 0..bytes.len() {
        store[i] = bytes[i];
    }
}

/// So many bytes are set one after another at least as fast as by a copy.
const SHORT: usize = 15;

/// Puts bytes over those from number `index` on.
fn copy_to(store: &mut VecDeque<u8>, index: usize, bytes: &[u8]) {
    store.make_contiguous()[index..index + bytes.len()].copy_from_slice(bytes);
}

impl TrieBuilderStore for VecDeque<u8> {
    fn atbs_new_empty(alloc: Global) -> Self {
        VecDeque::new(alloc)
    }

    fn atbs_len(&self) -> usize {
        self.len()
    }

    fn atbs_push_front(&mut self, byte: u8) -> Result<(), AllocError> {
        self.push_front(byte)?;
        Ok(())
    }

    fn atbs_extend_front(&mut self, bytes: &[u8]) -> Result<(), AllocError> {
        self.reserve(bytes.len())?;
        for index in (0..bytes.len()).rev() {
            self.push_front_reserved(bytes[index]);
        }
        Ok(())
    }

    fn atbs_to_bytes(&self, alloc: Global) -> Result<Vec<u8>, AllocError> {
        let mut bytes = Vec::with_capacity(alloc, self.len())?;
        let (front, back) = self.as_slices();
        bytes.extend_from_slice(front)?;
        bytes.extend_from_slice(back)?;
        Ok(bytes)
    }

    #[inline(always)]
    fn atbs_bitor_assign(&mut self, index: usize, bits: u8) {
        self[index] |= bits;
    }

    #[inline(always)]
    fn atbs_set_zeros(&mut self, index: usize, bytes: &[u8]) {
        if bytes.len() > SHORT {
            copy_to(self, index, bytes);
            return;
        }
        for i in 0..bytes.len() {
            self.atbs_bitor_assign(index + i, bytes[i]);
        }
    }

    fn atbs_pop_front(&mut self) -> u8 {
        self.pop_front().unwrap()
    }

    fn atbs_prepend_n_zeros(&mut self, count: usize) -> Result<(), AllocError> {
        if self.is_empty() {
            let mut zeros = Vec::with_capacity(*self.allocator(), count)?;
            zeros.resize(count, 0)?;
            *self = VecDeque::from_vec(zeros);
            return Ok(());
        }
        self.reserve(count)?;
        let mut left = count;
        while left > 0 {
            left -= 1;
            self.push_front_reserved(0);
        }
        Ok(())
    }

    fn atbs_permute_front(&mut self, lengths: &[usize], order: &[usize]) -> Result<(), AllocError> {
        let bytes = self.atbs_to_bytes(*self.allocator())?;
        let ranges = ranges_in_order(*self.allocator(), bytes.as_slice(), lengths, order)?;
        overwrite_front(self, ranges.as_slice());
        Ok(())
    }
}
