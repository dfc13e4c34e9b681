// Made from crates/zerotrie_search/src/sorted/fork.rt by rust/make: edit that.
//! An open branch with the edges that are left.

use crate::rstd::prelude::*;
use crate::rstd::alloc::{AllocError, Allocator};
use crate::zerotrie_core::laws::steps_answer_stored_bytes;
use crate::zerotrie_core::{Branch, ByteSet, ZeroTrieWithOptions};

/// A branch of which some edges are left.
#[derive(Clone, Copy, Debug)]
pub(in crate::made::zerotrie_search) struct Fork<'a> {
    /// The branch.
    branch: Branch<'a>,
    /// The edges that are left.
    left: ByteSet,
    /// The length of the key before the edges.
    depth: usize,
    /// How many bytes there are for the edges that are left and their targets. Malformed targets may
    /// overlap, and then there are too few.
    room: usize,
}

/// Returns the edges of a branch that are at least `from`.
#[inline(always)]
fn edges_from(branch: &Branch<'_>, from: usize) -> ByteSet {
    let (edges, _) = branch.behind.split_at(branch.edges);
    let mut left = ByteSet::none();
    for edge in edges {
        if from <= *edge as usize {
            left.insert(*edge);
        }
    }
    left
}

/// Returns the target of an edge of just this byte.
#[inline(always)]
pub(in crate::made::zerotrie_search) fn target_of<'a, K: ZeroTrieWithOptions>(
    branch: Branch<'a>,
    byte: u8,
) -> Option<&'a [u8]> {
    steps_answer_stored_bytes();
    let (edge, target) = branch.follow::<K>(byte)?;
    if edge == byte { Some(target) } else { None }
}

impl<'a> Fork<'a> {
    /// Opens a branch at the edges that are at least `from`.
    #[inline(always)]
    pub(in crate::made::zerotrie_search) fn open(branch: Branch<'a>, from: usize, depth: usize) -> Self {
        let left = edges_from(&branch, from);
        Fork {
            branch,
            left,
            depth,
            room: branch.behind.len(),
        }
    }

    /// Returns whether no edge is left.
    #[inline(always)]
    pub(in crate::made::zerotrie_search) fn is_over(&self) -> bool {
        self.left.least().is_none()
    }

    /// Takes the least edge that is left, and returns it with its target. Returns `None` if none is
    /// left, or if the branch has no room for the target.
    #[inline(always)]
    pub(in crate::made::zerotrie_search) fn next<K: ZeroTrieWithOptions>(&mut self) -> Option<(u8, &'a [u8])> {
        let edge = self.left.least()?;
        self.left.remove(edge);
        let target = target_of::<K>(self.branch, edge)?;
        self.room = self.room.checked_sub(target.len() + 1)?;
        Some((edge, target))
    }
}

/// Adds an edge to a key, and keeps the branch that it is from if other edges are left.
#[inline(always)]
pub(in crate::made::zerotrie_search) fn push<'a, A: Allocator>(
    edge: u8,
    fork: Fork<'a>,
    key: &mut Vec<u8, A>,
    forks: &mut Vec<Fork<'a>, A>,
) -> Result<(), AllocError> {
    key.push(edge)?;
    if !fork.is_over() {
        forks.push(fork)?;
    }
    Ok(())
}

/// Drops the innermost branch, the last of the open ones, if no edge of it is left.
#[inline(always)]
fn drop_over<'a, A: Allocator>(forks: &mut Vec<Fork<'a>, A>, inner: usize) {
    if forks[inner].is_over() {
        forks.truncate(inner);
    }
}

/// Goes back to the innermost branch with an edge left, and enters the least. Returns the target's
/// bytes, or `None` if no branch has one.
#[inline(always)]
pub(in crate::made::zerotrie_search) fn climb<'a, K: ZeroTrieWithOptions, A: Allocator>(
    key: &mut Vec<u8, A>,
    forks: &mut Vec<Fork<'a>, A>,
) -> Result<Option<&'a [u8]>, AllocError> {
    let Some(inner) = forks.len().checked_sub(1) else {
        return Ok(None);
    };
    key.truncate(forks[inner].depth);
    let Some((edge, target)) = forks[inner].next::<K>() else {
        return Ok(None);
    };
    drop_over(forks, inner);
    key.push(edge)?;
    Ok(Some(target))
}

/// Drops the branches that are at least this deep.
pub(in crate::made::zerotrie_search) fn drop_inner<'a, A: Allocator>(forks: &mut Vec<Fork<'a>, A>, depth: usize) {
    let mut count = forks.len();
    while count > 0 && depth <= forks[count - 1].depth {
        count -= 1;
    }
    forks.truncate(count);
}

/// Leaves out the edges outside of a set, of the innermost branch if it is after this many bytes of the
/// key.
pub(in crate::made::zerotrie_search) fn narrow_inner<'a, A: Allocator>(
    forks: &mut Vec<Fork<'a>, A>,
    depth: usize,
    wanted: &ByteSet,
) {
    let count = forks.len();
    if count == 0 {
        return;
    }
    let mut fork = forks[count - 1];
    if fork.depth != depth {
        return;
    }
    fork.left = fork.left.intersect(wanted);
    if fork.is_over() {
        forks.truncate(count - 1);
    } else {
        forks[count - 1] = fork;
    }
}
