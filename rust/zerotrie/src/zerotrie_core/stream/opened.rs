// Made from crates/zerotrie_core/src/stream/opened.rt by rust/make: edit that.
//! One branch that a stream has opened.

use crate::zerotrie_core::branch::Branch;
use crate::zerotrie_core::here::Here;
use crate::zerotrie_core::offsets::{begin_at, end_at, offsets_and_targets};

/// A branch of which some targets have been entered.
#[derive(Clone, Copy, Debug)]
pub(in crate::made::zerotrie_core) struct OpenBranch<'a> {
    /// The bytes of the branch from its edges on.
    pub behind: &'a [u8],
    /// The bytes of the whole trie from the first target on.
    pub tail: &'a [u8],
    /// How many edges it has.
    pub edges: usize,
    /// How many bytes an offset has.
    pub width: usize,
    /// The number of the next target.
    pub next: usize,
    /// Where the next target begins, counted from the first target.
    pub begin: usize,
    /// The length of the key before its edges.
    pub depth: usize,
}

impl<'a> OpenBranch<'a> {
    /// Returns a branch without edges.
    pub(in crate::made::zerotrie_core) fn closed() -> Self {
        OpenBranch {
            behind: &[],
            tail: &[],
            edges: 0,
            width: 1,
            next: 0,
            begin: 0,
            depth: 0,
        }
    }

    /// Opens a branch with which the rest begins, before its first target.
    #[inline(always)]
    pub(in crate::made::zerotrie_core) fn new(here: Here<'a>, branch: Branch<'a>, depth: usize) -> Self {
        OpenBranch {
            behind: branch.behind,
            tail: here.behind(branch.targets()).tail,
            edges: branch.edges,
            width: branch.width,
            next: 0,
            begin: 0,
            depth,
        }
    }

    /// Returns the same branch before the target of this number.
    pub(in crate::made::zerotrie_core) fn at_edge(self, place: usize) -> Self {
        let mut at = self;
        at.next = place;
        at.begin = begin_at(self.behind, self.edges, self.width, place);
        at
    }

    /// Returns whether targets are left.
    #[inline(always)]
    pub(in crate::made::zerotrie_core) fn has_next(&self) -> bool {
        self.next < self.edges
    }

    /// Returns the next target, or `None` if its offsets are not ascending.
    #[inline(always)]
    pub(in crate::made::zerotrie_core) fn target(&self) -> Option<Here<'a>> {
        let (_, rest) = offsets_and_targets(self.behind, self.edges, self.width);
        let end = end_at(self.behind, self.edges, self.width, self.next);
        let targets = Here {
            rest,
            tail: self.tail,
        };
        targets.part(self.begin, end)
    }
}
