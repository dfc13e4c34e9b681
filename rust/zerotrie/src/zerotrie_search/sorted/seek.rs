// Made from crates/zerotrie_search/src/sorted/seek.rt by rust/make: edit that.
//! The way down along a lower bound.

use crate::rstd::prelude::*;
use crate::zerotrie_search::sorted::fork::{Fork, climb, push};
use crate::rstd::alloc::{AllocError, Allocator};
use crate::rstd::cmp::Ordering;
use crate::rstd::ops::Bound;
use crate::zerotrie_core::{
    Branch, Node, ZeroTrieBuilderOptions, ZeroTrieWithOptions, by_kind, first_node,
};

/// What a step along a bound comes to.
#[derive(Clone, Copy, Debug)]
enum Way<'a, 'k> {
    /// The trie has the bytes so far: what comes next in it, and what is left of the bound.
    Down(&'a [u8], &'k [u8]),
    /// The bytes where the keys from the bound on begin, or `None` if there are none.
    Found(Option<&'a [u8]>),
}

/// Returns whether bytes come before others.
fn is_below(left: &[u8], run: &[u8]) -> bool {
    left.cmp(run) == Ordering::Less
}

/// Goes along a run of bytes that all keys here continue with.
#[inline(always)]
fn past_run<'a, 'k, K: ZeroTrieWithOptions, A: Allocator>(
    at: &'a [u8],
    run: &[u8],
    after: &'a [u8],
    left: &'k [u8],
    key: &mut Vec<u8, A>,
    forks: &mut Vec<Fork<'a>, A>,
) -> Result<Way<'a, 'k>, AllocError> {
    if left.starts_with(run) {
        key.extend_from_slice(run)?;
        let (_, more) = left.split_at(run.len());
        return Ok(Way::Down(after, more));
    }
    if is_below(left, run) {
        return Ok(Way::Found(Some(at)));
    }
    let next = climb::<K, A>(key, forks)?;
    Ok(Way::Found(next))
}

/// Enters the target of a byte, or of the least edge above it.
#[inline(always)]
fn past_branch<'a, 'k, K: ZeroTrieWithOptions, A: Allocator>(
    at: &'a [u8],
    branch: Branch<'a>,
    byte: u8,
    more: &'k [u8],
    key: &mut Vec<u8, A>,
    forks: &mut Vec<Fork<'a>, A>,
) -> Result<Way<'a, 'k>, AllocError> {
    let mut fork = Fork::open(branch, byte as usize, key.len());
    let Some((edge, target)) = fork.next::<K>() else {
        let next = climb::<K, A>(key, forks)?;
        return Ok(Way::Found(next));
    };
    push(edge, fork, key, forks)?;
    if edge == byte {
        Ok(Way::Down(target, more))
    } else {
        Ok(Way::Found(Some(target)))
    }
}

/// Goes past one node towards a byte of the bound.
#[inline(always)]
fn past_node<'a, 'k, K: ZeroTrieWithOptions, A: Allocator>(
    at: &'a [u8],
    left: &'k [u8],
    byte: u8,
    more: &'k [u8],
    key: &mut Vec<u8, A>,
    forks: &mut Vec<Fork<'a>, A>,
) -> Result<Way<'a, 'k>, AllocError> {
    match first_node::<K>(at) {
        None => {
            let next = climb::<K, A>(key, forks)?;
            Ok(Way::Found(next))
        }
        Some(Node::Value(_value, after)) => Ok(Way::Down(after, left)),
        Some(Node::Literal(_edge, after)) => {
            let (run, _) = at.split_at(1);
            let way = past_run::<K, A>(at, run, after, left, key, forks)?;
            Ok(way)
        }
        Some(Node::Span(run, after)) => {
            let way = past_run::<K, A>(at, run, after, left, key, forks)?;
            Ok(way)
        }
        Some(Node::Branch(branch)) => {
            let way = past_branch::<K, A>(at, branch, byte, more, key, forks)?;
            Ok(way)
        }
    }
}

/// Returns the bytes without a value at their beginning.
fn past_value<K: ZeroTrieWithOptions>(at: &[u8]) -> &[u8] {
    match first_node::<K>(at) {
        Some(Node::Value(_value, after)) => after,
        Some(Node::Literal(_edge, _after)) => at,
        Some(Node::Span(_run, _after)) => at,
        Some(Node::Branch(_branch)) => at,
        None => at,
    }
}

/// Goes down along a lower bound, as far as the trie has its bytes. Returns the bytes where the keys
/// from the bound on begin, or `None` if there are none.
fn seek<'a, K: ZeroTrieWithOptions, A: Allocator>(
    bytes: &'a [u8],
    bound: &[u8],
    with_it: bool,
    key: &mut Vec<u8, A>,
    forks: &mut Vec<Fork<'a>, A>,
) -> Result<Option<&'a [u8]>, AllocError> {
    let mut at = bytes;
    let mut left = bound;
    while let Some((byte, more)) = left.split_first() {
        match past_node::<K, A>(at, left, *byte, more, key, forks)? {
            Way::Found(next) => return Ok(next),
            Way::Down(after, rest) => {
                at = after;
                left = rest;
            }
        }
    }
    if with_it {
        return Ok(Some(at));
    }
    Ok(Some(past_value::<K>(at)))
}

/// Calls `seek` for the kind that the options name, if there is a lower bound.
pub(in crate::made::zerotrie_search) fn seek_of<'a, A: Allocator>(
    options: ZeroTrieBuilderOptions,
    bytes: &'a [u8],
    from: Bound<&[u8]>,
    key: &mut Vec<u8, A>,
    forks: &mut Vec<Fork<'a>, A>,
) -> Result<Option<&'a [u8]>, AllocError> {
    match from {
        Bound::Unbounded => Ok(Some(bytes)),
        Bound::Included(bound) => {
            by_kind!(options.kind(), seek::<_, A>(bytes, bound, true, key, forks))
        }
        Bound::Excluded(bound) => {
            by_kind!(
                options.kind(),
                seek::<_, A>(bytes, bound, false, key, forks)
            )
        }
    }
}
