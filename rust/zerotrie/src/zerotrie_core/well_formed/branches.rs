// Made from crates/zerotrie_core/src/well_formed/branches.rt by rust/make: edit that.
//! Validation of a branch: its search table, the width of its offsets, and where its targets end.

use crate::zerotrie_core::branch::Branch;
use crate::zerotrie_core::here::Here;
use crate::zerotrie_core::simd::lanes::rising_in_17;
use crate::zerotrie_core::well_formed::known_table::KnownTable;
use crate::zerotrie_base::{ZeroTrieWithOptions, folded, least_width};

fn rises<K: ZeroTrieWithOptions>(edges: &[u8]) -> bool {
    for index in 1..edges.len() {
        if folded::<K>(edges[index - 1]) >= folded::<K>(edges[index]) {
            return false;
        }
    }
    true
}

/// Returns whether the first `count` bytes rise when they are folded. If 17 bytes are there, up to
/// sixteen are compared at once, in the kinds that respect case.
#[inline(always)]
fn front_rises<K: ZeroTrieWithOptions>(bytes: &[u8], count: usize) -> bool {
    if !K::IGNORE_CASE && count <= 16 && bytes.len() >= 17 {
        return rising_in_17(bytes) >= count - 1;
    }
    let (edges, _) = bytes.split_at(count);
    rises::<K>(edges)
}

/// Returns whether the search table is one of the kind, and its edges are bytes of the kind. `tail`
/// is all bytes from the first edge on. If edges rise and the last is ASCII, all are. A hashed
/// table that passes is known from then on.
pub(in crate::made::zerotrie_core) fn has_table<'a, K: ZeroTrieWithOptions>(
    branch: &Branch<'a>,
    tail: &[u8],
    known: &mut KnownTable<'a>,
) -> bool {
    let (edges, _) = branch.behind.split_at(branch.edges);
    if !K::USE_PHF {
        branch.edge_at(branch.edges - 1) < 128 && front_rises::<K>(tail, branch.edges)
    } else if branch.edges < 16 {
        front_rises::<K>(tail, branch.edges)
    } else {
        known.is_perfect(branch.table, edges)
    }
}

/// Returns whether the offsets have the width that the targets after them need.
pub(in crate::made::zerotrie_core) fn has_width(body: &[u8], offsets: usize, width: usize) -> bool {
    let (_, targets) = body.split_at(offsets);
    width - 1 == least_width(targets.len())
}

/// Returns whether the search table and the width of the offsets are valid. `edges` begins with the
/// edges.
pub(super) fn has_front<'a, K: ZeroTrieWithOptions>(
    branch: &Branch<'a>,
    edges: Here<'_>,
    known: &mut KnownTable<'a>,
) -> bool {
    let (_, body) = branch.behind.split_at(branch.edges);
    has_width(body, branch.width * (branch.edges - 1), branch.width)
        && has_table::<K>(branch, edges.tail, known)
}

/// Returns the target of an edge, which begins at `begin`. Returns `None` if it is empty, or if its
/// offset falls or is beyond the last target.
#[inline(always)]
pub(super) fn target_from<'a, K: ZeroTrieWithOptions>(
    branch: &Branch<'_>,
    targets: Here<'a>,
    begin: usize,
    index: usize,
) -> Option<Here<'a>> {
    let target = targets.part(begin, branch.end_at(index))?;
    if target.rest.is_empty() {
        return None;
    }
    Some(target)
}
