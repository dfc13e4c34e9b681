// Made from crates/zerotrie_reverse/src/descent.rt by rust/make: edit that.
//! The key and the value at a place of a trie.
//!
//! The targets of a branch lie one after another, so one of them has the place. A descent from the
//! root follows the edge of that target at each branch, and passes each other node before the place.

use crate::rstd::prelude::*;
use crate::zerotrie_reverse::number::number_after;
use crate::rstd::alloc::{AllocError, Allocator};
use crate::zerotrie_core::{Branch, ZeroTrieWithOptions};

/// What a step passes: bytes of the key, and a number of bytes of the trie.
#[derive(Clone, Copy)]
struct Passed<'a> {
    run: &'a [u8],
    size: usize,
}

/// Returns a branch that is whole. Its search table is not read, so the edges stand for it.
#[inline(always)]
fn branch_with<K: ZeroTrieWithOptions>(
    edges: usize,
    width: usize,
    body: &[u8],
) -> Option<Branch<'_>> {
    if edges < 2 || width > usize::BITS as usize / 8 {
        return None;
    }
    let before = if K::USE_PHF && edges >= 16 {
        edges + 1
    } else {
        0
    };
    let behind = body.get(before..)?;
    if behind.len() < edges + width * (edges - 1) {
        return None;
    }
    let (table, _) = behind.split_at(edges);
    Some(Branch {
        edges,
        width,
        table,
        behind,
    })
}

/// Returns the branch with this lead, if it is whole.
#[inline(always)]
fn branch_after<K: ZeroTrieWithOptions>(lead: u8, rest: &[u8]) -> Option<Branch<'_>> {
    let (head, body) = number_after(32, lead, rest)?;
    let edges = if head % 256 == 0 { 256 } else { head % 256 };
    branch_with::<K>(edges, head / 256 + 1, body)
}

/// Returns the number of the edge whose target has the byte this far into the targets.
#[inline]
fn edge_over(branch: Branch<'_>, to: usize) -> usize {
    for index in 0..branch.edges - 1 {
        if to < branch.end_at(index) {
            return index;
        }
    }
    branch.edges - 1
}

/// Returns where the target of an edge begins among the targets.
#[inline(always)]
fn target_begin(branch: Branch<'_>, index: usize) -> usize {
    if index == 0 {
        0
    } else {
        branch.end_at(index - 1)
    }
}

/// Returns the byte of an edge.
#[inline(always)]
fn edge_at<'a>(branch: Branch<'a>, index: usize) -> &'a [u8] {
    let (_, from) = branch.behind.split_at(index);
    let (edge, _) = from.split_at(1);
    edge
}

/// Returns the step over the edge of a branch whose target has the place.
#[inline(always)]
fn over_branch<'a>(bytes: &[u8], branch: Branch<'a>, to: usize) -> Passed<'a> {
    let front = bytes.len().saturating_sub(branch.end_at(branch.edges - 1));
    let index = edge_over(branch, to.saturating_sub(front));
    Passed {
        run: edge_at(branch, index),
        size: front + target_begin(branch, index),
    }
}

/// Returns the step over a value, which is a number after this lead.
#[inline(always)]
fn over_value<'a>(bytes: &'a [u8], lead: u8, rest: &'a [u8]) -> Option<Passed<'a>> {
    let (_value, after) = number_after(16, lead, rest)?;
    Some(Passed {
        run: &[],
        size: bytes.len().saturating_sub(after.len()),
    })
}

/// Returns the step over a span, whose length is a number after this lead.
#[inline(always)]
fn over_span<'a>(bytes: &'a [u8], lead: u8, rest: &'a [u8]) -> Option<Passed<'a>> {
    let (len, behind) = number_after(16, lead, rest)?;
    let (run, after) = behind.split_at_checked(len)?;
    Some(Passed {
        run,
        size: bytes.len().saturating_sub(after.len()),
    })
}

/// Returns a step towards the place that is this many bytes away, or `None` if no node begins here.
#[inline(always)]
fn step_towards<K: ZeroTrieWithOptions>(bytes: &[u8], to: usize) -> Option<Passed<'_>> {
    let (lead, rest) = bytes.split_first()?;
    let lead = *lead;
    if lead < 128 {
        let (run, _) = bytes.split_at(1);
        return Some(Passed { run, size: 1 });
    }
    if lead < 160 {
        return over_value(bytes, lead, rest);
    }
    if lead < 192 {
        return over_span(bytes, lead, rest);
    }
    let branch = branch_after::<K>(lead, rest)?;
    Some(over_branch(bytes, branch, to))
}

/// Returns the bytes from this place on.
#[inline(always)]
fn from_place(bytes: &[u8], place: usize) -> &[u8] {
    let (_, from) = bytes.split_at(place.min(bytes.len()));
    from
}

/// Writes the key that a descent to this place reads.
///
/// It is a key of the trie if the place is that of the key's value, and unspecified if it is not.
#[inline]
pub(in crate::made::zerotrie_reverse) fn read_key_at<K: ZeroTrieWithOptions, A: Allocator>(
    bytes: &[u8],
    place: usize,
    key: &mut Vec<u8, A>,
) -> Result<(), AllocError> {
    key.clear();
    let mut rest = bytes;
    let mut to = place;
    for _step in 0..place {
        if to == 0 {
            break;
        }
        let Some(passed) = step_towards::<K>(rest, to) else {
            break;
        };
        if passed.size > to {
            break;
        }
        key.extend_from_slice(passed.run)?;
        rest = from_place(rest, passed.size);
        to -= passed.size;
    }
    Ok(())
}

/// Returns the number that these bytes begin with, or 0 if none does.
#[inline(always)]
fn value_of(from: &[u8]) -> usize {
    let Some((lead, rest)) = from.split_first() else {
        return 0;
    };
    match number_after(16, *lead, rest) {
        Some((value, _after)) => value,
        None => 0,
    }
}

/// Returns the value at this place, or 0 if no number begins there.
#[inline(always)]
pub(in crate::made::zerotrie_reverse) fn value_at(bytes: &[u8], place: usize) -> usize {
    value_of(from_place(bytes, place))
}
