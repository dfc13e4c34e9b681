// Made from crates/zerotrie_checks/src/tests/counting.rt by rust/make: edit that.
//! Stores that grow at their front.

use crate::rstd::prelude::*;
use super::*;
use crate::rstd::alloc::{AllocError, Global};
use crate::rstd::collections::VecDeque;
use crate::zerotrie_build::TrieBuilderStore;

/// A store that counts the calls that grow it and those that write it, and knows whether the places
/// that were written ascend strictly.
pub struct Counting {
    bytes: VecDeque<u8>,
    next: usize,
    /// How often zeros were put in front.
    pub zeros: usize,
    /// How many other calls changed its length or its order.
    pub others: usize,
    /// How often a byte was set.
    pub sets: usize,
    pub ascends: bool,
}

impl TrieBuilderStore for Counting {
    fn atbs_new_empty(alloc: Global) -> Self {
        Counting {
            bytes: VecDeque::new(alloc),
            next: 0,
            zeros: 0,
            others: 0,
            sets: 0,
            ascends: true,
        }
    }

    fn atbs_len(&self) -> usize {
        self.bytes.len()
    }

    fn atbs_push_front(&mut self, byte: u8) -> Result<(), AllocError> {
        self.others = self.others.saturating_add(1);
        self.bytes.atbs_push_front(byte)
    }

    fn atbs_extend_front(&mut self, bytes: &[u8]) -> Result<(), AllocError> {
        self.others = self.others.saturating_add(1);
        self.bytes.atbs_extend_front(bytes)
    }

    fn atbs_to_bytes(&self, alloc: Global) -> Result<Vec<u8>, AllocError> {
        self.bytes.atbs_to_bytes(alloc)
    }

    fn atbs_bitor_assign(&mut self, index: usize, bits: u8) {
        self.sets = self.sets.saturating_add(1);
        self.ascends = self.ascends && index >= self.next;
        self.next = index.saturating_add(1);
        self.bytes.atbs_bitor_assign(index, bits);
    }

    fn atbs_pop_front(&mut self) -> u8 {
        self.others = self.others.saturating_add(1);
        self.bytes.atbs_pop_front()
    }

    fn atbs_prepend_n_zeros(&mut self, count: usize) -> Result<(), AllocError> {
        self.zeros = self.zeros.saturating_add(1);
        self.bytes.atbs_prepend_n_zeros(count)
    }

    fn atbs_permute_front(&mut self, lengths: &[usize], order: &[usize]) -> Result<(), AllocError> {
        self.others = self.others.saturating_add(1);
        self.bytes.atbs_permute_front(lengths, order)
    }
}

#[test]
fn grows_at_the_front() -> Result<(), Fail> {
    let rt = HostRuntime;
    let mut store: VecDeque<u8> = TrieBuilderStore::atbs_new_empty(rt.alloc());
    store.atbs_extend_front(b"..abcdefghijkl=")?;
    store.atbs_permute_front(&[2, 5, 7], &[0, 2, 1])?;
    same(
        &rt,
        store.atbs_to_bytes(rt.alloc())?.as_slice(),
        b"..fghijklabcde=".as_slice(),
    );
    store.atbs_push_front(b'!')?;
    store.atbs_prepend_n_zeros(2)?;
    same(&rt, store.atbs_len(), 18);
    store.atbs_bitor_assign(1, 0x40);
    same(&rt, store.atbs_pop_front(), 0);
    same(
        &rt,
        store.atbs_to_bytes(rt.alloc())?.as_slice(),
        b"@!..fghijklabcde=".as_slice(),
    );
    Ok(())
}
