// Made from tests/rows/overlaps.rt.in by rust/make: edit that.
//! Listings and searches in order over malformed bytes whose targets overlap, so that few bytes have many ways. They read no byte
//! twice.

use crate::rstd::prelude::*;
use super::*;
use crate::rstd::cell::Cell;
use crate::rstd::ops::Bound;
use crate::zerotrie_core::ByteSet;
use crate::zerotrie_search::{Automaton, Levenshtein, ZeroTrieNearest, ZeroTrieSearch, ZeroTrieSorted};

/// Accepts all keys, counts its steps, and wants some bytes alone.
struct Counts<'a> {
    steps: &'a Cell<usize>,
    wanted: Option<ByteSet>,
}

impl Automaton for Counts<'_> {
    type State = ();

    fn start(&self) {}

    fn step(&self, _state: (), _byte: u8) {
        self.steps.set(self.steps.get().wrapping_add(1));
    }

    fn is_match(&self, _state: ()) -> bool {
        true
    }

    fn can_match(&self, _state: ()) -> bool {
        true
    }

    fn wanted(&self, _state: ()) -> Option<ByteSet> {
        self.wanted
    }
}

/// Returns this many branches, one inside another, around some bytes. The edges are a, a and b, and the targets of the first and the
/// last are all bytes behind the offsets, of this many bytes. The second would fall, but no one asks for it.
fn nested(alloc: Global, count: usize, width: usize, innermost: &[u8]) -> Result<Vec<u8>, AllocError> {
    let mut bytes = Vec::from_slice(alloc, innermost)?;
    for _ in 0..count {
        let mut branch = Vec::new(alloc);
        if width == 1 {
            branch.push(0xC3)?;
        } else {
            // the head of three edges and offsets of two bytes
            branch.extend_from_slice(b"\xE1\x63")?;
        }
        branch.extend_from_slice(b"aab")?;
        let len = bytes.len();
        if width == 2 {
            branch.extend_from_slice(&[(len >> 8) as u8, 0])?;
        }
        branch.extend_from_slice(&[(len & 255) as u8, 0])?;
        branch.extend_from_slice(bytes.as_slice())?;
        bytes = branch;
    }
    Ok(bytes)
}

/// Returns how many pairs a search for all keys between two bounds lists, and how many steps it takes.
fn counted<K: ZeroTrieWithOptions>(
    alloc: Global,
    bytes: &[u8],
    bounds: (Bound<&[u8]>, Bound<&[u8]>),
    wanted: Option<ByteSet>,
) -> Result<(usize, usize), AllocError> {
    let steps = Cell::new(0);
    let pairs = ZeroTrieSorted::new::<K>(alloc, bytes, bounds.0, bounds.1)?;
    let counts = Counts { steps: &steps, wanted };
    let mut search = ZeroTrieSearch::new(alloc, pairs, counts);
    let mut found = 0;
    while search.advance()? {
        found += 1;
    }
    Ok((found, steps.get()))
}

/// Returns whether all searches of some bytes list no more pairs and take no more steps than there are bytes.
fn are_few<K: ZeroTrieWithOptions>(alloc: Global, bytes: &[u8]) -> Result<bool, AllocError> {
    let all = (Bound::Unbounded, Bound::Unbounded);
    let some = (Bound::Excluded(b"aba".as_slice()), Bound::Included(b"bbbbbbbb".as_slice()));
    for bounds in [all, some] {
        for wanted in [None, Some(ByteSet::from_bytes(b"ab")), Some(ByteSet::from_bytes(b"b"))] {
            let (found, steps) = counted::<K>(alloc, bytes, bounds, wanted)?;
            if found > bytes.len() || steps > bytes.len() {
                return Ok(false);
            }
        }
    }
    let mut listing = ZeroTrieSorted::new::<K>(alloc, bytes, all.0, all.1)?;
    let mut listed = 0;
    while listing.advance()? {
        listed += 1;
    }
    let Some(word) = Levenshtein::new(b"abab", 3) else {
        return Ok(false);
    };
    let mut nearest = ZeroTrieNearest::new::<K>(alloc, bytes, word);
    let mut near = 0;
    while nearest.advance()? {
        near += 1;
    }
    Ok(listed <= bytes.len() && near <= 4 * bytes.len())
}

#[test]
fn overlapping_targets_are_read_once() -> Result<(), Fail> {
    let rt = HostRuntime;
    let alloc = rt.alloc();
    // no node, a value, and a key of its own
    for innermost in [[0xFF_u8; 20].as_slice(), b"\x81".as_slice(), b"x\x81".as_slice()] {
        for count in 1..=60 {
            let width = if count <= 38 { 1 } else { 2 };
            let bytes = nested(alloc, count, width, innermost)?;
            holds(&rt, are_few::<Simple>(alloc, bytes.as_slice())?);
            holds(&rt, are_few::<Ext>(alloc, bytes.as_slice())?);
        }
    }
    Ok(())
}
