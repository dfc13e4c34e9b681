// Made from crates/zerotrie_queries/src/listing.rt by rust/make: edit that.
//! The pairs of a trie, printed as they come.

use crate::rstd::prelude::*;

mod distances;
mod forms;
mod greatest;
mod json_object;
mod listed;
mod printable;

use crate::zerotrie_queries::folding::FoldedWords;
use crate::zerotrie_queries::listing::distances::Distances;
use crate::zerotrie_queries::listing::forms::write_pairs;
use crate::zerotrie_queries::listing::listed::listed;
use crate::zerotrie_queries::listing::printable::{first_unprintable_of, takes_all_keys};
use crate::zerotrie_queries::print::Form;
use crate::zerotrie_queries::question::ListQuery;
use crate::rstd::alloc::{AllocError, Global};
use crate::rstd::io;
use crate::rstd::io::Write;
use crate::zerotrie_core::TrieRef;
use crate::zerotrie_files::Noted;

/// Why pairs are not listed, or not all of them.
#[derive(Debug)]
pub enum ListError {
    /// This key, the first such one, can't be printed in the form: as JSON one that is not UTF-8, and as
    /// it is before a tab one that has a tab or a line feed.
    Unprintable(Vec<u8>),
    /// The output failed, or memory was refused.
    Failed(io::Error),
}

impl From<io::Error> for ListError {
    fn from(error: io::Error) -> Self {
        ListError::Failed(error)
    }
}

/// Returns the first key of a selection that can't be printed in a form, if there is one.
fn first_unprintable(
    alloc: Global,
    trie: &TrieRef<'_>,
    form: Form,
    words: &FoldedWords,
    selection: ListQuery<'_>,
) -> Result<Option<Vec<u8>>, AllocError> {
    if takes_all_keys(form) {
        return Ok(None);
    }
    let pairs = listed(alloc, trie, words, selection)?;
    first_unprintable_of(alloc, form, pairs)
}

/// Writes the pairs of a selection, or returns the first key that can't be printed in the form, and writes
/// nothing.
fn write_selection<W: Write>(
    alloc: Global,
    trie: &TrieRef<'_>,
    form: Form,
    selection: ListQuery<'_>,
    output: &mut Noted<W>,
) -> io::Result<Option<Vec<u8>>> {
    let words = FoldedWords::new(alloc, trie.kind, selection.choice)?;
    if let Some(key) = first_unprintable(alloc, trie, form, &words, selection)? {
        return Ok(Some(key));
    }
    let pairs = listed(alloc, trie, &words, selection)?;
    let edits = Distances::of(trie.kind, words.in_place_of(selection.choice));
    write_pairs(alloc, form, &edits, pairs, output)?;
    Ok(None)
}

/// Writes the pairs of a selection: the first whose keys are chosen, in its order. It allocates nothing
/// for a pair alone.
///
/// ```
/// // the keys "ab", "ac" and "b" with values 1, 2 and 3
/// let trie = TrieRef {
///     kind: TrieKind::Simple,
///     bytes: b"\xC2ab\x06\xC2bc\x01\x81\x82\x83",
/// };
/// let choice = Choice {
///     prefix: b"",
///     range: KeyRange {
///         from: Bound::Unbounded,
///         to: Bound::Unbounded,
///     },
///     without: None,
///     sought: Some(Sought {
///         by: SearchBy::Fuzzy(1),
///         word: b"ab",
///         begins: false,
///     }),
/// };
/// let nearest = ListQuery {
///     choice,
///     order: Order::Nearest,
///     top: None,
///     limit: None,
/// };
/// let mut lines = Noted::new(Vec::new(rt.alloc()));
/// write_list(rt.alloc(), &trie, Form::Distances, nearest, &mut lines)?;
/// assert_eq!(rt; lines.get_ref().as_slice(), b"ab\t1\t0\nac\t2\t1\nb\t3\t1\n");
/// ```
///
/// It validates no bytes. If they are malformed, it writes pairs that it finds there, and which is
/// unspecified. In the order of the trie it reads the part with the prefix. In the order of bytes it reads
/// the part between the bounds of the range or, if there are none and the kind does not ignore case, the
/// part with the prefix, and skips the keys that begin as none of these keys does.
///
/// The error is `Unprintable` exactly if one of these keys can't be printed in the form, and then nothing
/// was written. After another error a beginning of the answer was.
pub fn write_list<W: Write>(
    alloc: Global,
    trie: &TrieRef<'_>,
    form: Form,
    selection: ListQuery<'_>,
    output: &mut Noted<W>,
) -> Result<(), ListError> {
    match write_selection(alloc, trie, form, selection, output)? {
        None => Ok(()),
        Some(key) => Err(ListError::Unprintable(key)),
    }
}
