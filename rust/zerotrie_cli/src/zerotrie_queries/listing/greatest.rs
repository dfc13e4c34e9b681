// Made from crates/zerotrie_queries/src/listing/greatest.rt by rust/make: edit that.
//! The pairs of a listing that have the greatest values.

use crate::rstd::prelude::*;
use crate::zerotrie_queries::listing::printable::copied;
use crate::rstd::alloc::{AllocError, Global};
use crate::rstd::vec::IntoIter;
use crate::zerotrie_search::TrieListing;

/// Keeps the pairs of the greatest values, at most this many, the greatest first. Those of one value keep
/// their order.
fn keep_greatest(held: &mut Vec<(Vec<u8>, usize)>, most: usize) -> Result<(), AllocError> {
    held.sort_by(|a, b| b.1.cmp(&a.1));
    held.truncate(most);
    Ok(())
}

/// Adds a pair to those that are held. If they are more than twice as many as count, it drops the others.
fn hold(
    alloc: Global,
    held: &mut Vec<(Vec<u8>, usize)>,
    key: &[u8],
    value: usize,
    most: usize,
) -> Result<(), AllocError> {
    held.push((copied(alloc, key)?, value))?;
    if held.len() / 2 > most {
        keep_greatest(held, most)?;
    }
    Ok(())
}

/// Takes the pairs to come that have the greatest values, at most this many, the greatest first. Those of one
/// value keep their order. Some twice as many are in memory.
fn greatest<P: TrieListing>(
    alloc: Global,
    mut pairs: P,
    most: usize,
) -> Result<Vec<(Vec<u8>, usize)>, AllocError> {
    let mut held = Vec::new(alloc);
    while pairs.advance()? {
        hold(alloc, &mut held, pairs.key(), pairs.value(), most)?;
    }
    keep_greatest(&mut held, most)?;
    Ok(held)
}

/// Pairs that are held, one after another.
pub(in crate::zerotrie_queries) struct HeldPairs {
    rest: IntoIter<(Vec<u8>, usize)>,
    now: (Vec<u8>, usize),
    ended: bool,
}

impl HeldPairs {
    /// Lists the pairs to come that have the greatest values, at most this many, the greatest first. Those of
    /// one value keep their order.
    pub(in crate::zerotrie_queries) fn greatest<P: TrieListing>(
        alloc: Global,
        pairs: P,
        most: usize,
    ) -> Result<Self, AllocError> {
        let held = greatest(alloc, pairs, most)?;
        Ok(HeldPairs {
            rest: held.into_iter(),
            now: (Vec::new(alloc), 0),
            ended: false,
        })
    }
}

impl TrieListing for HeldPairs {
    fn advance(&mut self) -> Result<bool, AllocError> {
        if self.ended {
            return Ok(false);
        }
        match self.rest.next() {
            Some(pair) => {
                self.now = pair;
                Ok(true)
            }
            None => {
                self.ended = true;
                Ok(false)
            }
        }
    }

    fn key(&self) -> &[u8] {
        self.now.0.as_slice()
    }

    fn value(&self) -> usize {
        self.now.1
    }
}
