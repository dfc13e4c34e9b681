// Made from crates/zerotrie_core/src/node.rt by rust/make: edit that.
//! The first node of some bytes, as a value.

use crate::zerotrie_core::branch::Branch;
use crate::zerotrie_base::{ZeroTrieWithOptions, read_varint_meta3};

/// A node, and the bytes after it.
#[derive(Clone, Copy, Debug)]
pub enum Node<'a> {
    /// A value, and the bytes after it.
    Value(usize, &'a [u8]),
    /// A byte that all keys continue with, and the bytes after it.
    Literal(u8, &'a [u8]),
    /// A run of bytes that all keys continue with, and the bytes after it.
    Span(&'a [u8], &'a [u8]),
    /// A branch.
    Branch(Branch<'a>),
}

/// Reads the head of a branch, of one byte or two. A longer one has a width that no kind has.
#[inline(always)]
fn read_head(lead: u8, rest: &[u8]) -> Option<(usize, &[u8])> {
    let digit = (lead % 32) as usize;
    if lead < 224 {
        return Some((digit, rest));
    }
    let (next, behind) = rest.split_first()?;
    (*next < 128).then_some((digit * 128 + *next as usize + 32, behind))
}

/// The width of offsets that fit into a `usize`, whose bytes are one more.
const WIDEST: usize = usize::BITS as usize / 8 - 1;

#[inline(always)]
fn greatest_width<K: ZeroTrieWithOptions>() -> usize {
    if K::EXTENDED { WIDEST } else { 3 }
}

/// Like `table_in`, for a hashed table: the parameters of the perfect hash, then the edges.
#[inline(always)]
fn hashed_table_in(edges: usize, more: usize, body: &[u8]) -> Option<(&[u8], &[u8])> {
    if body.len() < 2 * edges + 1 + more {
        return None;
    }
    let (table, _) = body.split_at(2 * edges + 1);
    let (_, behind) = body.split_at(edges + 1);
    Some((table, behind))
}

/// Like `table_in`, for a sorted table, which is the edges.
#[inline(always)]
fn sorted_table_in(edges: usize, more: usize, body: &[u8]) -> Option<(&[u8], &[u8])> {
    if body.len() < edges + more {
        return None;
    }
    let (table, _) = body.split_at(edges);
    Some((table, body))
}

/// Splits off the search table of a branch. Returns it and all bytes from the first edge on, or
/// `None` if the bytes are shorter than the table and `more`.
///
/// Each form of table has its own path, so that finding the edges needs no arithmetic on their
/// number.
#[inline(always)]
fn table_in<K: ZeroTrieWithOptions>(
    edges: usize,
    more: usize,
    body: &[u8],
) -> Option<(&[u8], &[u8])> {
    if K::USE_PHF && edges >= 16 {
        hashed_table_in(edges, more, body)
    } else {
        sorted_table_in(edges, more, body)
    }
}

/// Reads a head of one byte, or of two if the second alone holds the number of edges, as most do.
/// Returns the number of edges, the width of an offset, and the bytes after the head.
#[inline(always)]
fn read_plain_head(lead: u8, rest: &[u8]) -> Option<(usize, usize, &[u8])> {
    if lead < 194 {
        return None;
    }
    if lead < 224 {
        return Some((lead as usize - 192, 1, rest));
    }
    let (next, behind) = rest.split_first()?;
    if lead % 2 == 1 && 98 <= *next && *next < 128 {
        Some((*next as usize - 96, lead as usize / 2 - 110, behind))
    } else {
        None
    }
}

/// Returns the branch with this number of edges and this width, or `None` if it is cut off or not
/// of the kind.
#[inline(always)]
fn branch_in<K: ZeroTrieWithOptions>(edges: usize, width: usize, body: &[u8]) -> Option<Branch<'_>> {
    if width > greatest_width::<K>() + 1 || edges < 2 {
        return None;
    }
    let (table, behind) = table_in::<K>(edges, width * (edges - 1), body)?;
    Some(Branch {
        edges,
        width,
        table,
        behind,
    })
}

/// Returns the branch that begins with `lead`, or `None` if it is cut off or not of the kind.
#[inline(always)]
fn branch_at<K: ZeroTrieWithOptions>(lead: u8, rest: &[u8]) -> Option<Branch<'_>> {
    if let Some((edges, width, body)) = read_plain_head(lead, rest) {
        return branch_in::<K>(edges, width, body);
    }
    let (head, body) = read_head(lead, rest)?;
    let edges = if head % 256 == 0 { 256 } else { head % 256 };
    branch_in::<K>(edges, head / 256 + 1, body)
}

/// Returns the run of the span that begins with `lead`, and the bytes after it.
#[inline(always)]
fn span_at(lead: u8, rest: &[u8]) -> Option<(&[u8], &[u8])> {
    let (len, behind) = read_varint_meta3(lead, rest)?;
    if behind.len() < len {
        return None;
    }
    Some(behind.split_at(len))
}

/// Returns the first node of the bytes, or `None` if they begin with no node of the kind.
#[inline(always)]
pub fn first_node<K: ZeroTrieWithOptions>(bytes: &[u8]) -> Option<Node<'_>> {
    let (lead, rest) = bytes.split_first()?;
    let lead = *lead;
    if lead >= 192 {
        Some(Node::Branch(branch_at::<K>(lead, rest)?))
    } else if lead < 128 {
        Some(Node::Literal(lead, rest))
    } else if lead < 160 {
        let (value, after) = read_varint_meta3(lead, rest)?;
        Some(Node::Value(value, after))
    } else {
        if !K::SPANS {
            return None;
        }
        let (run, after) = span_at(lead, rest)?;
        Some(Node::Span(run, after))
    }
}

/// Returns what follows a node: for a branch its targets, one after another.
pub(in crate::made::zerotrie_core) fn row_behind<'a>(node: Node<'a>) -> &'a [u8] {
    match node {
        Node::Value(_, after) | Node::Literal(_, after) | Node::Span(_, after) => after,
        Node::Branch(branch) => branch.targets(),
    }
}
