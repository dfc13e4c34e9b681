// Made from crates/zerotrie_core/src/walk.rt by rust/make: edit that.
//! The nodes of a trie in the order of their bytes, each with its place.
//!
//! A walk keeps the parts that are still to be read: what follows a node, and the targets of a
//! branch. The next part is the last of them.

use crate::rstd::prelude::*;

mod part;

use crate::zerotrie_core::branch::Branch;
use crate::zerotrie_core::node::{Node, first_node, row_behind};
pub use part::Part;
use crate::rstd::alloc::{AllocError, Allocator, Global};
use crate::zerotrie_base::{ZeroTrieBuilderOptions, ZeroTrieWithOptions, by_kind};

/// A node and its place.
#[derive(Clone, Copy, Debug)]
pub struct Visit<'a> {
    /// The part that begins with the node.
    pub part: Part<'a>,
    /// The node.
    pub node: Node<'a>,
}

impl<'a> Visit<'a> {
    /// Returns the bytes of the node alone: of a branch, those before its targets.
    pub fn own_bytes(&self) -> &'a [u8] {
        let bytes = self.part.bytes;
        let after = row_behind(self.node);
        let (own, _) = bytes.split_at(bytes.len().saturating_sub(after.len()));
        own
    }
}

fn read_node(options: ZeroTrieBuilderOptions, bytes: &[u8]) -> Option<Node<'_>> {
    by_kind!(options.kind(), first_node::<_>(bytes))
}

/// Adds the targets of the branch at the beginning of a part, in their order, up to the first whose
/// offsets fall.
fn push_targets<'a, A: Allocator>(
    parts: &mut Vec<Part<'a>, A>,
    at: Part<'a>,
    branch: Branch<'a>,
) -> Result<(), AllocError> {
    let first = at.place + (at.bytes.len() - branch.targets().len());
    let mut begin = 0;
    for index in 0..branch.edges {
        let Some(target) = branch.target_at(index) else {
            break;
        };
        parts.push(at.below_edge(first + begin, branch.edge_at(index), target))?;
        begin += target.len();
    }
    Ok(())
}

/// Reverses the order of all parts after the first `len`.
fn reverse_from<T, A: Allocator>(parts: &mut Vec<T, A>, len: usize) {
    let (_, last) = parts.as_mut_slice().split_at_mut(len);
    last.reverse();
}

/// Adds the parts that follow the node at the beginning of a part. The next one is added last.
#[inline(always)]
pub(in crate::made::zerotrie_core) fn push_behind<'a, A: Allocator>(
    parts: &mut Vec<Part<'a>, A>,
    at: Part<'a>,
    node: Node<'a>,
) -> Result<(), AllocError> {
    match node {
        Node::Value(_value, after) => parts.push(at.after(after))?,
        Node::Literal(_byte, after) => parts.push(at.after(after))?,
        Node::Span(_run, after) => parts.push(at.after(after))?,
        Node::Branch(branch) => {
            let len = parts.len();
            push_targets(parts, at, branch)?;
            reverse_from(parts, len);
        }
    }
    Ok(())
}

/// Returns the next node of the parts. After an error no part is left.
fn next_of<'a, A: Allocator>(
    options: ZeroTrieBuilderOptions,
    parts: &mut Vec<Part<'a>, A>,
) -> Result<Option<Visit<'a>>, AllocError> {
    while let Some(part) = parts.pop() {
        let Some(node) = read_node(options, part.bytes) else {
            continue;
        };
        if let Err(error) = push_behind(parts, part, node) {
            parts.clear();
            return Err(error);
        }
        return Ok(Some(Visit { part, node }));
    }
    Ok(None)
}

/// The nodes of a trie, in the order of their bytes.
///
/// ```
/// # use zerotrie::{rstd::examples::*, zerotrie_core::*, zerotrie_base::*};
/// let bytes = b"a\xC2bc\x01\x81\x82";                     // the keys "ab" and "ac"
/// let mut nodes = Nodes::new::<Simple>(Global, bytes)?;
/// let mut places = Vec::new(Global);
/// while let Some(visit) = nodes.next_node()? {
///     places.push((visit.part.place, visit.part.depth, visit.part.edge))?;
/// }
/// let listed = [(0, 0, None), (1, 0, None), (5, 1, Some(b'b')), (6, 1, Some(b'c'))];
/// assert_eq!(places.as_slice(), listed.as_slice());
/// # Ok::<(), Fail>(())
/// ```
///
/// On malformed bytes it returns the nodes up to where none begins, and in a branch up to the first
/// target whose offsets fall. So no byte is read twice. Allocates memory for the branches that are
/// nested.
#[derive(Debug)]
pub struct Nodes<'a, A: Allocator = Global> {
    options: ZeroTrieBuilderOptions,
    parts: Vec<Part<'a>, A>,
}

impl<'a, A: Allocator> Nodes<'a, A> {
    /// Returns all nodes of the bytes.
    pub fn new<K: ZeroTrieWithOptions>(alloc: A, bytes: &'a [u8]) -> Result<Self, AllocError> {
        let mut parts = Vec::new(alloc);
        parts.push(Part::whole(bytes))?;
        Ok(Nodes {
            options: ZeroTrieBuilderOptions::of::<K>(),
            parts,
        })
    }

    /// Returns the next node, or `None` if there is none left.
    ///
    /// The only error is that an allocation failed. After it no node is left.
    pub fn next_node(&mut self) -> Result<Option<Visit<'a>>, AllocError> {
        next_of(self.options, &mut self.parts)
    }
}

/// Returns the number of values of a node.
fn values_in(node: &Node<'_>) -> usize {
    match node {
        Node::Value(_value, _after) => 1,
        Node::Literal(_, _) | Node::Span(_, _) | Node::Branch(_) => 0,
    }
}

/// Returns the number of pairs, which is the number of keys.
///
/// ```
/// # use zerotrie::{rstd::examples::*, zerotrie_core::*, zerotrie_base::*};
/// assert_eq!(count_pairs::<Simple>(b"ad\x90\x06ef\x90\x11"), 2);
/// # Ok::<(), Fail>(())
/// ```
///
/// All nodes form one row, and each shows where it ends. So this reads the bytes once, and does not
/// allocate. On malformed bytes the result is unspecified, but at most the number of bytes; the
/// call never panics or reads outside them.
pub fn count_pairs<K: ZeroTrieWithOptions>(bytes: &[u8]) -> usize {
    let mut rest = bytes;
    let mut count = 0;
    while let Some(node) = first_node::<K>(rest) {
        count += values_in(&node);
        rest = row_behind(node);
    }
    count
}
