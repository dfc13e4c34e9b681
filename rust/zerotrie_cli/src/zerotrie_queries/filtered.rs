// Made from crates/zerotrie_queries/src/filtered.rt by rust/make: edit that.
//! The pairs of a listing whose keys an automaton accepts.

use crate::rstd::alloc::AllocError;
use crate::zerotrie_search::{Automaton, TrieListing, accepts};

/// Returns whether an automaton accepts a key, or there is none.
fn is_kept<S: Automaton>(condition: &Option<S>, key: &[u8]) -> bool {
    match condition {
        Some(automaton) => accepts(automaton, key),
        None => true,
    }
}

/// Moves a listing to its next pair whose key an automaton accepts, and returns whether there is one.
pub(in crate::zerotrie_queries) fn next_accepted<P: TrieListing, S: Automaton>(
    pairs: &mut P,
    condition: &Option<S>,
) -> Result<bool, AllocError> {
    while pairs.advance()? {
        if is_kept(condition, pairs.key()) {
            return Ok(true);
        }
    }
    Ok(false)
}
