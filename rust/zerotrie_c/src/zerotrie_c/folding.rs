// Made from crates/zerotrie_c/src/folding.rt by rust/make: edit that.
//! The texts of a search, as a kind compares them.

use crate::rstd::prelude::*;
use crate::zerotrie_c::searches::{Search, search_by};
use crate::rstd::alloc::{AllocError, Global};
use crate::zerotrie_core::TrieKind;
use crate::zerotrie_search::{SearchBy, fold_by, fold_word};

/// Returns whether a kind ignores case.
pub fn ignores_case(kind: TrieKind) -> bool {
    match kind {
        TrieKind::Ignore => true,
        TrieKind::Simple | TrieKind::Hash | TrieKind::Ext => false,
    }
}

/// Returns bytes as a kind compares them.
fn fold(alloc: Global, kind: TrieKind, bytes: &[u8]) -> Result<Vec<u8>, AllocError> {
    let mut folds = Vec::new(alloc);
    folds.extend_from_slice(bytes)?;
    fold_by(kind, folds.as_mut_slice());
    Ok(folds)
}

/// Returns a word as a kind compares it, and a pattern as it is.
pub fn fold_copy(
    alloc: Global,
    kind: TrieKind,
    by: SearchBy,
    word: &[u8],
) -> Result<Vec<u8>, AllocError> {
    let mut folds = Vec::new(alloc);
    folds.extend_from_slice(word)?;
    fold_word(kind, by, folds.as_mut_slice());
    Ok(folds)
}

/// Returns the text of a search as a kind compares it.
fn fold_text(alloc: Global, kind: TrieKind, search: &Search<'_>) -> Result<Vec<u8>, AllocError> {
    match search_by(search.by, search.edits) {
        Some(by) => fold_copy(alloc, kind, by, search.text.get()),
        None => fold(alloc, kind, search.text.get()),
    }
}

/// The texts of a search, as a kind compares them.
pub struct FoldedTexts {
    folded_text: Vec<u8>,
    folded_to: Vec<u8>,
}

impl FoldedTexts {
    /// Returns the texts of a search, as a kind compares them.
    pub fn new(alloc: Global, kind: TrieKind, search: &Search<'_>) -> Result<Self, AllocError> {
        Ok(FoldedTexts {
            folded_text: fold_text(alloc, kind, search)?,
            folded_to: fold(alloc, kind, search.to.get())?,
        })
    }

    /// Returns a search with these texts in place of its own.
    pub fn in_place_of<'w>(&'w self, search: &Search<'_>) -> Search<'w> {
        Search {
            by: search.by,
            edits: search.edits,
            from_bound: search.from_bound,
            to_bound: search.to_bound,
            text: crate::Slice::of(self.folded_text.as_slice()),
            to: crate::Slice::of(self.folded_to.as_slice()),
            beginnings: search.beginnings,
        }
    }
}
