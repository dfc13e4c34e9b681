// Made from crates/zerotrie_search/src/sorted/walk.rt by rust/make: edit that.
//! The way from node to node in the order of bytes.

use crate::rstd::prelude::*;
use crate::zerotrie_search::sorted::fork::{Fork, climb};
use crate::rstd::alloc::{AllocError, Allocator};
use crate::zerotrie_core::{Node, ZeroTrieBuilderOptions, ZeroTrieWithOptions, by_kind, first_node};

/// What a listing comes to when it moves by one node.
#[derive(Clone, Copy, Debug)]
pub(in crate::made::zerotrie_search) enum Reached {
    /// A pair: the current key, and its value.
    Pair,
    /// Other bytes of the current key after this many, and no pair yet.
    Bytes(usize),
    /// The targets of a branch, each after the current key and its edge.
    Branch,
    /// No pair is left.
    End,
}

/// Enters the next target of the open branches. The key gets its edge.
#[inline(always)]
fn enter_next<'a, K: ZeroTrieWithOptions, A: Allocator>(
    rest: &mut &'a [u8],
    key: &mut Vec<u8, A>,
    forks: &mut Vec<Fork<'a>, A>,
) -> Result<Reached, AllocError> {
    let Some(target) = climb::<K, A>(key, forks)? else {
        return Ok(Reached::End);
    };
    *rest = target;
    Ok(Reached::Bytes(key.len().saturating_sub(1)))
}

/// Moves a literal and those that come next to the end of the key. Returns the bytes after them.
#[inline(always)]
fn push_literals<'a, A: Allocator>(
    literal: u8,
    after: &'a [u8],
    key: &mut Vec<u8, A>,
) -> Result<&'a [u8], AllocError> {
    key.push(literal)?;
    let mut at = after;
    loop {
        let Some((next, more)) = at.split_first() else {
            return Ok(at);
        };
        if *next >= 128 {
            return Ok(at);
        }
        key.push(*next)?;
        at = more;
    }
}

/// Moves over the next node. The value is written if the node is one. A branch is opened, and none of
/// its targets is entered. Where no node begins, the bytes are malformed, and nothing more comes.
#[inline(always)]
fn next_node<'a, K: ZeroTrieWithOptions, A: Allocator>(
    rest: &mut &'a [u8],
    key: &mut Vec<u8, A>,
    value: &mut usize,
    forks: &mut Vec<Fork<'a>, A>,
) -> Result<Reached, AllocError> {
    if rest.is_empty() {
        let reached = enter_next::<K, A>(rest, key, forks)?;
        return Ok(reached);
    }
    let kept = key.len();
    match first_node::<K>(*rest) {
        None => Ok(Reached::End),
        Some(Node::Value(number, after)) => {
            *rest = after;
            *value = number;
            Ok(Reached::Pair)
        }
        Some(Node::Literal(byte, after)) => {
            *rest = push_literals(byte, after, key)?;
            Ok(Reached::Bytes(kept))
        }
        Some(Node::Span(run, after)) => {
            key.extend_from_slice(run)?;
            *rest = after;
            Ok(Reached::Bytes(kept))
        }
        Some(Node::Branch(branch)) => {
            forks.push(Fork::open(branch, 0, kept))?;
            *rest = &[];
            Ok(Reached::Branch)
        }
    }
}

/// Calls `next_node` for the kind that the options name.
pub(in crate::made::zerotrie_search) fn next_node_of<'a, A: Allocator>(
    options: ZeroTrieBuilderOptions,
    rest: &mut &'a [u8],
    key: &mut Vec<u8, A>,
    value: &mut usize,
    forks: &mut Vec<Fork<'a>, A>,
) -> Result<Reached, AllocError> {
    by_kind!(options.kind(), next_node::<_, A>(rest, key, value, forks))
}

/// Moves to the next pair and returns its value, or `None` if there is none.
fn next_pair<'a, K: ZeroTrieWithOptions, A: Allocator>(
    rest: &mut &'a [u8],
    key: &mut Vec<u8, A>,
    forks: &mut Vec<Fork<'a>, A>,
) -> Result<Option<usize>, AllocError> {
    let mut at = *rest;
    let mut value = 0;
    loop {
        match next_node::<K, A>(&mut at, key, &mut value, forks)? {
            Reached::Pair => {
                *rest = at;
                return Ok(Some(value));
            }
            Reached::End => return Ok(None),
            Reached::Bytes(_) => {}
            Reached::Branch => {}
        }
    }
}

/// Calls `next_pair` for the kind that the options name.
pub(in crate::made::zerotrie_search) fn next_pair_of<'a, A: Allocator>(
    options: ZeroTrieBuilderOptions,
    rest: &mut &'a [u8],
    key: &mut Vec<u8, A>,
    forks: &mut Vec<Fork<'a>, A>,
) -> Result<Option<usize>, AllocError> {
    by_kind!(options.kind(), next_pair::<_, A>(rest, key, forks))
}
