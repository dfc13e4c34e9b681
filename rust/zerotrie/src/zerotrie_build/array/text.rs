// Made from crates/zerotrie_build/src/array/text.rt by rust/make: edit that.
//! A text that is written from its last byte to its first.

use crate::zerotrie_build::number::{BRANCH, VALUE, number_bytes};
use crate::zerotrie_base::least_width;

/// A target of a branch that is not written yet.
#[derive(Clone, Copy, Debug, Default)]
pub(in crate::made::zerotrie_build) struct Sibling {
    /// How many bytes lead to the branch.
    pub(in crate::made::zerotrie_build) depth: usize,
    /// The edge byte.
    pub(in crate::made::zerotrie_build) byte: u8,
    /// How many bytes the target has.
    pub(in crate::made::zerotrie_build) len: usize,
}

/// A text at the end of a buffer. Bytes for which the buffer has no room are counted and lost, so
/// that a text is known to be too long only once all of it was written.
pub(in crate::made::zerotrie_build) struct Text<'a> {
    pub(in crate::made::zerotrie_build) buffer: &'a mut [u8],
    /// How many bytes the text has, those that were lost too.
    pub(in crate::made::zerotrie_build) len: usize,
    /// How many bytes are in front of the siblings.
    pub(in crate::made::zerotrie_build) front: usize,
}

impl Text<'_> {
    /// Puts a byte in front: a literal is its byte.
    pub(in crate::made::zerotrie_build) fn put(&mut self, byte: u8) {
        self.len = self.len.saturating_add(1);
        if let Some(place) = self.buffer.len().checked_sub(self.len) {
            self.buffer[place] = byte;
        }
        self.front = self.front.saturating_add(1);
    }

    /// Puts bytes in front.
    fn put_all(&mut self, bytes: &[u8]) {
        for index in (0..bytes.len()).rev() {
            self.put(bytes[index]);
        }
    }

    /// Puts a value node in front.
    pub(in crate::made::zerotrie_build) fn put_value(&mut self, value: usize) {
        self.put_all(&number_bytes(VALUE, 16, value));
    }

    /// Puts the bytes of this weight of the offsets of a branch to these targets in front.
    fn put_block(&mut self, siblings: &[Sibling], total: usize, place: usize) {
        let mut end = total;
        for index in 1..siblings.len() {
            end -= siblings[index - 1].len;
            self.put(((end >> (8 * place)) % 256) as u8);
        }
    }

    /// Puts `bytes` bytes of each offset of a branch to these targets in front.
    fn put_offsets(&mut self, siblings: &[Sibling], total: usize, bytes: usize) {
        for place in 0..bytes {
            self.put_block(siblings, total, place);
        }
    }

    /// Puts the edges of a branch to these targets in front.
    fn put_edges(&mut self, siblings: &[Sibling]) {
        for sibling in siblings {
            self.put(sibling.byte);
        }
    }

    /// Puts the head, the edges and the offsets of a branch to these targets in front. Together the
    /// targets have `total` bytes.
    pub(in crate::made::zerotrie_build) fn put_branch(&mut self, siblings: &[Sibling], total: usize) {
        let width = least_width(total);
        self.put_offsets(siblings, total, width + 1);
        self.put_edges(siblings);
        self.put_all(&number_bytes(BRANCH, 32, 256 * width + siblings.len() % 256));
    }
}

/// Returns how many bytes the targets have together, or the greatest number if they have more.
pub(in crate::made::zerotrie_build) fn total(siblings: &[Sibling]) -> usize {
    let mut total: usize = 0;
    for sibling in siblings {
        total = total.saturating_add(sibling.len);
    }
    total
}
