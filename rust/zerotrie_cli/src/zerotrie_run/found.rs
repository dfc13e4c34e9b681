// Made from crates/zerotrie_run/src/found.rt by rust/make: edit that.
//! Listings, and whether they have a pair.

use crate::rstd::prelude::*;
use crate::rstd::alloc::Global;
use crate::rstd::io;
use crate::rstd::io::{ErrorKind, Write};
use crate::zerotrie_core::TrieRef;
use crate::zerotrie_files::Noted;
use crate::zerotrie_queries::{Form, ListError, ListQuery, Style, write_list};

/// Returns whether a listing has a pair: it reads up to the first one.
fn finds_pair(alloc: Global, trie: &TrieRef<'_>, selection: ListQuery<'_>) -> io::Result<bool> {
    if selection.top == Some(0) {
        return Ok(false);
    }
    if selection.limit == Some(0) {
        return Ok(false);
    }
    let mut lines = Noted::new(Vec::new(alloc));
    let first = ListQuery {
        top: None,
        limit: Some(1),
        ..selection
    };
    match write_list(alloc, trie, Form::Lines(Style::Keys), first, &mut lines) {
        Ok(()) => Ok(!lines.get_ref().as_slice().is_empty()),
        // a line can have any key, and only memory can fail
        Err(ListError::Unprintable(_) | ListError::Failed(_)) => {
            Err(io::Error::from(ErrorKind::OutOfMemory))
        }
    }
}

/// Returns the limit of a listing that has a pair or none: one that has none is not searched again.
fn limit_shown(found: bool, limit: Option<usize>) -> Option<usize> {
    if found { limit } else { Some(0) }
}

/// Writes a listing, as `write_list` does, and returns whether it has a pair.
pub fn write_found<W: Write>(
    alloc: Global,
    trie: &TrieRef<'_>,
    form: Form,
    selection: ListQuery<'_>,
    output: &mut Noted<W>,
) -> Result<bool, ListError> {
    let has_one = match finds_pair(alloc, trie, selection) {
        Ok(found) => found,
        Err(error) => return Err(ListError::Failed(error)),
    };
    let shown = ListQuery {
        limit: limit_shown(has_one, selection.limit),
        ..selection
    };
    match write_list(alloc, trie, form, shown, output) {
        Ok(()) => Ok(has_one),
        Err(error) => Err(error),
    }
}
