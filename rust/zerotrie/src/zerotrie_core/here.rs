// Made from crates/zerotrie_core/src/here.rt by rust/make: edit that.
//! A part of the bytes that is still to be read, with the bytes after it.

use crate::zerotrie_core::simd::lanes::{first_other_in_16, highs_in_16};

/// A value of at most so many bytes fits into a `usize`, as each byte has at most seven bits of it.
const SHORT: usize = usize::BITS as usize / 7;

/// The bytes that are still to be read, and all bytes from there on.
///
/// Sixteen bytes are read at once as long as sixteen are left, even past the end of a target.
#[derive(Clone, Copy, Debug)]
pub(in crate::made::zerotrie_core) struct Here<'a> {
    pub rest: &'a [u8],
    pub tail: &'a [u8],
}

impl<'a> Here<'a> {
    /// Returns a part that is all of these bytes.
    #[inline(always)]
    pub(in crate::made::zerotrie_core) fn at(bytes: &'a [u8]) -> Self {
        Here {
            rest: bytes,
            tail: bytes,
        }
    }

    /// Returns a part that is the first `len` of these bytes.
    #[inline(always)]
    pub(in crate::made::zerotrie_core) fn first_of(tail: &'a [u8], len: usize) -> Self {
        let (rest, _) = tail.split_at(len);
        Here { rest, tail }
    }

    /// Returns an empty part.
    #[inline(always)]
    pub(in crate::made::zerotrie_core) fn nowhere() -> Self {
        Here::at(&[])
    }

    /// Skips to these bytes, with which the rest ends. Both slices are cut from one, so that one
    /// register holds where they begin.
    #[inline(always)]
    pub(in crate::made::zerotrie_core) fn behind(self, after: &'a [u8]) -> Self {
        let (_, tail) = self.tail.split_at(self.rest.len() - after.len());
        let (rest, _) = tail.split_at(after.len());
        Here { rest, tail }
    }

    /// Returns the number of literals at the beginning of the rest, as far as sixteen bytes show; 0
    /// if fewer bytes are left.
    #[inline(always)]
    pub(in crate::made::zerotrie_core) fn literals(&self) -> usize {
        if self.tail.len() < 16 {
            return 0;
        }
        let (sixteen, _) = self.tail.split_at(16);
        first_other_in_16(sixteen, sixteen)
            .min(16)
            .min(self.rest.len())
    }

    /// Skips this many bytes of the rest.
    #[inline(always)]
    pub(in crate::made::zerotrie_core) fn after(self, count: usize) -> Self {
        let (_, after) = self.rest.split_at(count);
        self.behind(after)
    }

    /// Returns the length of the value at the beginning of the rest; 0 if there is none, or if the
    /// first sixteen bytes do not show it.
    ///
    /// After the lead all bytes of a value but the last are 128 or more, so no loop is needed. The
    /// result for a longer value than `SHORT` is 0, since it might be too large.
    #[inline(always)]
    pub(in crate::made::zerotrie_core) fn value_len(&self) -> usize {
        if self.tail.len() < 16 {
            return 0;
        }
        let lead = self.tail[0];
        let highs = highs_in_16(self.tail);
        let len = if lead < 144 { 1 } else { highs + 1 };
        if (128 <= lead) & (lead < 160) & (len <= SHORT) & (len <= self.rest.len()) {
            len
        } else {
            0
        }
    }

    /// Returns a range of the rest, if the range is valid.
    #[inline(always)]
    pub(in crate::made::zerotrie_core) fn part(self, begin: usize, end: usize) -> Option<Here<'a>> {
        let rest = self.rest.get(begin..end)?;
        let (_, tail) = self.tail.split_at(begin);
        Some(Here { rest, tail })
    }
}
