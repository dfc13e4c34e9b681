// Made from crates/zerotrie_core/src/edges.rt by rust/make: edit that.
//! The edges of a trie, by byte and by number.
//!
//! A literal is one edge. So is each byte of a span, which has the rest of the run after it. A
//! branch has one edge for each target. A value before an edge is skipped.

use crate::zerotrie_core::branch::Branch;
use crate::zerotrie_core::node::{Node, first_node};
use crate::zerotrie_base::{ZeroTrieWithOptions, folded};

/// An edge, and what follows it: the rest of a run, then a trie. After these come `after` bytes
/// more of those that were read.
#[derive(Clone, Copy)]
pub(in crate::made::zerotrie_core) struct Along<'a> {
    pub edge: u8,
    pub run: &'a [u8],
    pub trie: &'a [u8],
    pub after: usize,
}

impl<'a> Along<'a> {
    #[inline(always)]
    fn plain(edge: u8, trie: &'a [u8], after: usize) -> Self {
        Along {
            edge,
            run: &[],
            trie,
            after,
        }
    }
}

/// Returns the next byte of a run, if it equals the byte in this kind.
#[inline(always)]
pub(in crate::made::zerotrie_core) fn run_edge_like<'a, K: ZeroTrieWithOptions>(
    run: &'a [u8],
    trie: &'a [u8],
    byte: u8,
) -> Option<Along<'a>> {
    let (edge, run) = run.split_first()?;
    let edge = *edge;
    (folded::<K>(edge) == folded::<K>(byte)).then_some(Along {
        edge,
        run,
        trie,
        after: 0,
    })
}

#[inline(always)]
fn literal_like<K: ZeroTrieWithOptions>(edge: u8, trie: &[u8], byte: u8) -> Option<Along<'_>> {
    (folded::<K>(edge) == folded::<K>(byte)).then_some(Along::plain(edge, trie, 0))
}

#[inline(always)]
fn branch_edge_like<K: ZeroTrieWithOptions>(branch: Branch<'_>, byte: u8) -> Option<Along<'_>> {
    let (edge, trie, after) = branch.follow_within::<K>(byte)?;
    Some(Along::plain(edge, trie, after))
}

/// Returns the edge that equals the byte in this kind. Skips values before it.
#[inline(always)]
pub(in crate::made::zerotrie_core) fn edge_like<K: ZeroTrieWithOptions>(bytes: &[u8], byte: u8) -> Option<Along<'_>> {
    let mut rest = bytes;
    while let Some(node) = first_node::<K>(rest) {
        match node {
            Node::Value(_value, after) => rest = after,
            Node::Literal(edge, trie) => return literal_like::<K>(edge, trie, byte),
            Node::Span(run, trie) => return run_edge_like::<K>(run, trie, byte),
            Node::Branch(branch) => return branch_edge_like::<K>(branch, byte),
        }
    }
    None
}

/// Returns the next byte of a run as the only edge, and the number of edges, which is 1.
#[inline(always)]
pub(in crate::made::zerotrie_core) fn run_edge_numbered<'a>(
    run: &'a [u8],
    trie: &'a [u8],
    index: usize,
) -> Option<(Along<'a>, usize)> {
    let (edge, run) = run.split_first()?;
    let edge = *edge;
    let along = Along {
        edge,
        run,
        trie,
        after: 0,
    };
    (index == 0).then_some((along, 1))
}

#[inline(always)]
fn literal_numbered(edge: u8, trie: &[u8], index: usize) -> Option<(Along<'_>, usize)> {
    (index == 0).then_some((Along::plain(edge, trie, 0), 1))
}

#[inline(always)]
fn branch_edge_numbered(branch: Branch<'_>, index: usize) -> Option<(Along<'_>, usize)> {
    if index >= branch.edges {
        return None;
    }
    let (trie, after) = branch.target_within(index)?;
    let along = Along::plain(branch.edge_at(index), trie, after);
    Some((along, branch.edges))
}

/// Returns the edge with this number, and the number of edges. Skips values before it.
#[inline(always)]
pub(in crate::made::zerotrie_core) fn edge_numbered<K: ZeroTrieWithOptions>(
    bytes: &[u8],
    index: usize,
) -> Option<(Along<'_>, usize)> {
    let mut rest = bytes;
    while let Some(node) = first_node::<K>(rest) {
        match node {
            Node::Value(_value, after) => rest = after,
            Node::Literal(edge, trie) => return literal_numbered(edge, trie, index),
            Node::Span(run, trie) => return run_edge_numbered(run, trie, index),
            Node::Branch(branch) => return branch_edge_numbered(branch, index),
        }
    }
    None
}
