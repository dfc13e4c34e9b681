// Made from crates/zerotrie_queries/src/first_pairs.rt by rust/make: edit that.
//! The first pairs of a listing.

use crate::rstd::alloc::AllocError;
use crate::zerotrie_search::TrieListing;

/// The pairs of a listing, at most as many as a limit says.
pub(in crate::zerotrie_queries) struct FirstPairs<P: TrieListing> {
    pub(in crate::zerotrie_queries) source: P,
    pub(in crate::zerotrie_queries) limit: Option<usize>,
    pub(in crate::zerotrie_queries) ended: bool,
}

/// Returns whether no pair may come any more.
fn is_spent(limit: Option<usize>) -> bool {
    match limit {
        Some(most) => most == 0,
        None => false,
    }
}

/// Returns what is left of a limit after one pair.
fn one_less(limit: Option<usize>) -> Option<usize> {
    match limit {
        Some(most) => Some(most.saturating_sub(1)),
        None => None,
    }
}

impl<P: TrieListing> TrieListing for FirstPairs<P> {
    fn advance(&mut self) -> Result<bool, AllocError> {
        if self.ended {
            return Ok(false);
        }
        if is_spent(self.limit) {
            self.ended = true;
            return Ok(false);
        }
        let more = self.source.advance()?;
        self.limit = one_less(self.limit);
        Ok(more)
    }

    fn key(&self) -> &[u8] {
        self.source.key()
    }

    fn value(&self) -> usize {
        self.source.value()
    }
}
