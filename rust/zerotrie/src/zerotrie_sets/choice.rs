// Made from crates/zerotrie_sets/src/choice.rt by rust/make: edit that.
//! What is chosen of the rows of a merge.

use crate::zerotrie_sets::merge::Merge;
use crate::rstd::alloc::AllocError;
use crate::zerotrie_core::PairStream;

/// Chooses a value of what two streams have for a key, or passes over the key.
pub trait Choice {
    type Value: Copy;

    // What is chosen.

    fn choose(&self, first: Option<usize>, second: Option<usize>) -> Option<Self::Value>;
}

/// Moves a merge to the next row of which something is chosen, and returns that.
pub fn next_chosen<S: PairStream, T: PairStream, C: Choice>(
    choice: &C,
    rows: &mut Merge<S, T>,
) -> Result<Option<C::Value>, AllocError> {
    while rows.advance()? {
        let value = choice.choose(rows.first(), rows.second());
        if value.is_some() {
            return Ok(value);
        }
    }
    Ok(None)
}
