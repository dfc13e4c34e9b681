// Made from crates/zerotrie_core/src/stream/open_branches.rt by rust/make: edit that.
//! The branches that a stream has opened.

use crate::rstd::prelude::*;
use crate::zerotrie_core::here::Here;
use crate::zerotrie_core::stream::opened::OpenBranch;
use crate::rstd::alloc::{AllocError, Allocator};

/// The open branches, the innermost beside the others. Only the innermost may have no target left.
#[derive(Debug)]
#[derive(Clone)]
pub(in crate::made::zerotrie_core) struct OpenBranches<'a, A: Allocator> {
    top: OpenBranch<'a>,
    outer: Vec<OpenBranch<'a>, A>,
}

impl<'a, A: Allocator> OpenBranches<'a, A> {
    /// Returns no open branch.
    pub(in crate::made::zerotrie_core) fn closed(alloc: A) -> Self {
        OpenBranches {
            top: OpenBranch::closed(),
            outer: Vec::new(alloc),
        }
    }

    /// Leaves the innermost branch if none of its targets is left, and returns whether any branch
    /// has one.
    #[inline(always)]
    pub(in crate::made::zerotrie_core) fn has_target(&mut self) -> bool {
        if self.top.has_next() {
            return true;
        }
        match self.outer.pop() {
            Some(outer) => {
                self.top = outer;
                true
            }
            None => false,
        }
    }

    /// Opens a branch inside the others. Keeps the one around it only if that has targets left.
    #[inline(always)]
    pub(in crate::made::zerotrie_core) fn open(&mut self, inner: OpenBranch<'a>) -> Result<(), AllocError> {
        if self.top.has_next() {
            self.outer.push(self.top)?;
        }
        self.top = inner;
        Ok(())
    }

    /// Leaves the branches that stand after this many bytes of the key or more.
    pub(in crate::made::zerotrie_core) fn leave(&mut self, depth: usize) {
        while depth <= self.top.depth {
            let Some(outer) = self.outer.pop() else {
                self.top = OpenBranch::closed();
                return;
            };
            self.top = outer;
        }
    }

    /// Enters the next target of the innermost branch: writes its edge to the key, and returns its
    /// bytes. If its offsets fall, the rest of the branch is skipped, so no byte is read twice.
    #[inline(always)]
    pub(in crate::made::zerotrie_core) fn enter(&mut self, key: &mut Vec<u8, A>) -> Result<Here<'a>, AllocError> {
        key.truncate(self.top.depth);
        let Some(target) = self.top.target() else {
            self.top.next = self.top.edges;
            return Ok(Here::nowhere());
        };
        key.push(self.top.behind[self.top.next])?;
        self.top.begin += target.rest.len();
        self.top.next += 1;
        Ok(target)
    }
}
