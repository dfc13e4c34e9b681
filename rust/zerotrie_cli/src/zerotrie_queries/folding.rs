// Made from crates/zerotrie_queries/src/folding.rt by rust/make: edit that.
//! The words of a choice, as a kind compares them.

use crate::rstd::prelude::*;
use crate::zerotrie_queries::question::{Choice, Sought};
use crate::zerotrie_queries::sorted::above_prefix;
use crate::rstd::alloc::{AllocError, Global};
use crate::rstd::ops::Bound;
use crate::zerotrie_core::TrieKind;
use crate::zerotrie_search::{KeyRange, fold_by, fold_word};

/// Returns bytes as a kind compares them.
fn fold(alloc: Global, kind: TrieKind, bytes: &[u8]) -> Result<Vec<u8>, AllocError> {
    let mut folds = Vec::new(alloc);
    folds.extend_from_slice(bytes)?;
    fold_by(kind, folds.as_mut_slice());
    Ok(folds)
}

/// Returns a bound as a kind compares keys.
fn fold_bound(
    alloc: Global,
    kind: TrieKind,
    bound: Bound<&[u8]>,
) -> Result<Bound<Vec<u8>>, AllocError> {
    match bound {
        Bound::Included(bytes) => Ok(Bound::Included(fold(alloc, kind, bytes)?)),
        Bound::Excluded(bytes) => Ok(Bound::Excluded(fold(alloc, kind, bytes)?)),
        Bound::Unbounded => Ok(Bound::Unbounded),
    }
}

/// Returns the bytes of a bound.
fn lent(bound: &Bound<Vec<u8>>) -> Bound<&[u8]> {
    match bound {
        Bound::Included(bytes) => Bound::Included(bytes.as_slice()),
        Bound::Excluded(bytes) => Bound::Excluded(bytes.as_slice()),
        Bound::Unbounded => Bound::Unbounded,
    }
}

/// Returns the word by which keys are sought, as a kind compares them, or no bytes.
fn word_of(alloc: Global, kind: TrieKind, sought: Option<Sought<'_>>) -> Result<Vec<u8>, AllocError> {
    let mut word = Vec::new(alloc);
    if let Some(sought) = sought {
        word.extend_from_slice(sought.word)?;
        fold_word(kind, sought.by, word.as_mut_slice());
    }
    Ok(word)
}

/// The words of a choice, as a kind compares them.
pub struct FoldedWords {
    prefix: Vec<u8>,
    from: Bound<Vec<u8>>,
    to: Bound<Vec<u8>>,
    word: Vec<u8>,
    above: Option<Vec<u8>>,
}

impl FoldedWords {
    /// Returns the words of a choice, as a kind compares them.
    pub fn new(alloc: Global, kind: TrieKind, choice: Choice<'_>) -> Result<Self, AllocError> {
        let prefix = fold(alloc, kind, choice.prefix)?;
        let above = above_prefix(alloc, prefix.as_slice())?;
        Ok(FoldedWords {
            prefix,
            from: fold_bound(alloc, kind, choice.range.from)?,
            to: fold_bound(alloc, kind, choice.range.to)?,
            word: word_of(alloc, kind, choice.sought)?,
            above,
        })
    }

    /// Returns a bound above all keys that begin with the prefix.
    pub fn above(&self) -> Bound<&[u8]> {
        match &self.above {
            Some(bytes) => Bound::Excluded(bytes.as_slice()),
            None => Bound::Unbounded,
        }
    }

    /// Returns a choice with these words in place of its own.
    pub fn in_place_of<'w>(&'w self, choice: Choice<'w>) -> Choice<'w> {
        Choice {
            prefix: self.prefix.as_slice(),
            range: KeyRange {
                from: lent(&self.from),
                to: lent(&self.to),
            },
            without: choice.without,
            sought: match choice.sought {
                Some(sought) => Some(Sought {
                    by: sought.by,
                    word: self.word.as_slice(),
                    begins: sought.begins,
                }),
                None => None,
            },
        }
    }
}
