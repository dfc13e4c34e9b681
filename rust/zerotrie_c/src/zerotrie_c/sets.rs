// Made from crates/zerotrie_c/src/sets.rt by rust/make: edit that.
//! Unions, intersections and differences of tries.

use crate::rstd::prelude::*;
use crate::zerotrie_c::builds::{bytes_of_sorted, hand_out_trie};
use crate::zerotrie_c::flat::items_between;
use crate::zerotrie_c::listings::Flat;
use crate::zerotrie_c::numbers::{
    DUPLICATE_KEY, MALFORMED_TRIE, OUT_OF_MEMORY, SUM_TOO_LARGE, UNKNOWN_KIND, UNKNOWN_SELECTION,
    kind_of, trie_of,
};
use crate::rstd::alloc::{AllocError, AllocFailed, Global};
use crate::zerotrie_core::{TrieKind, TrieRef, ZeroTrieBuildError};
use crate::zerotrie_sets::laws::{row_errors_are_of_keys, selections_are_of_maps};
use crate::zerotrie_sets::{MergeAll, Rule, RuleError, Selection, SortedTrie};

/// A trie, with C's layout: the number of its kind, and its bytes.
#[repr(C)]
#[derive(Clone, Copy)]
pub struct Source<'a> {
    pub kind: u32,
    pub nodes: crate::Slice<'a>,
}

/// Why tries are not combined.
#[derive(Clone, Copy, Debug, PartialEq, Eq)]
pub enum SetError {
    UnknownKind,
    Malformed,
    Rule(RuleError),
    OutOfMemory,
}

impl From<AllocError> for SetError {
    fn from(_cause: AllocError) -> SetError {
        SetError::OutOfMemory
    }
}

impl<T> From<AllocFailed<T>> for SetError {
    fn from(_cause: AllocFailed<T>) -> SetError {
        SetError::OutOfMemory
    }
}

/// Returns the selection with this number, or `None` if none has it.
fn selection_with(number: u32) -> Option<Selection> {
    match number {
        0 => Some(Selection::Union),
        1 => Some(Selection::Intersection),
        2 => Some(Selection::Difference),
        3 => Some(Selection::SymmetricDifference),
        _ => None,
    }
}

/// Returns the rule with this number, or `None` if none has it.
fn rule_with(number: u32) -> Option<Rule> {
    match number {
        0 => Some(Rule::First),
        1 => Some(Rule::Last),
        2 => Some(Rule::Sum),
        3 => Some(Rule::Min),
        4 => Some(Rule::Max),
        5 => Some(Rule::Refuse),
        6 => Some(Rule::Equal),
        _ => None,
    }
}

/// Returns the selection and the rule with these numbers, or `None` if a number is that of none.
fn plan_with(selection: u32, rule: u32) -> Option<(Selection, Rule)> {
    let selection = selection_with(selection)?;
    let rule = rule_with(rule)?;
    Some((selection, rule))
}

/// Returns the status of an error.
pub fn set_status_of(error: SetError) -> u32 {
    match error {
        SetError::UnknownKind => UNKNOWN_KIND,
        SetError::Malformed => MALFORMED_TRIE,
        SetError::Rule(RuleError::SeveralValues | RuleError::DifferentValues) => DUPLICATE_KEY,
        SetError::Rule(RuleError::SumTooLarge) => SUM_TOO_LARGE,
        SetError::OutOfMemory => OUT_OF_MEMORY,
    }
}

/// Returns the tries of kinds that are known.
fn tries_of<'a>(alloc: Global, sources: &[Source<'a>]) -> Result<Vec<TrieRef<'a>>, SetError> {
    let mut tries = Vec::with_capacity(alloc, sources.len())?;
    for source in sources {
        let Some(trie) = trie_of(source.kind, source.nodes.get()) else {
            return Err(SetError::UnknownKind);
        };
        tries.push(trie)?;
    }
    Ok(tries)
}

/// Returns the pairs of a trie in the order of bytes.
fn stream_of<'t>(alloc: Global, trie: &'t TrieRef<'_>) -> Result<SortedTrie<'t, 't>, SetError> {
    match SortedTrie::of(alloc, trie) {
        Ok(Some(stream)) => Ok(stream),
        Ok(None) => Err(SetError::Malformed),
        Err(_) => Err(SetError::OutOfMemory),
    }
}

/// Returns the pairs of each trie in the order of bytes.
fn streams_of<'t>(
    alloc: Global,
    tries: &'t [TrieRef<'_>],
) -> Result<Vec<SortedTrie<'t, 't>>, SetError> {
    let mut streams = Vec::with_capacity(alloc, tries.len())?;
    for trie in tries {
        match stream_of(alloc, trie) {
            Ok(stream) => streams.push(stream)?,
            Err(error) => return Err(error),
        }
    }
    Ok(streams)
}

/// Adds the current key of a merge, if it is selected.
fn add_selected(
    selection: Selection,
    rule: Rule,
    rows: &MergeAll<SortedTrie<'_, '_>>,
    flat: &mut Flat,
) -> Result<(), SetError> {
    match rows.selected(selection, rule) {
        Ok(Some(value)) => {
            flat.push(rows.key(), value)?;
            Ok(())
        }
        Ok(None) => Ok(()),
        Err(cause) => Err(SetError::Rule(cause)),
    }
}

/// Returns what is selected of the rows of a merge.
fn selected_of(
    alloc: Global,
    selection: Selection,
    rule: Rule,
    mut rows: MergeAll<SortedTrie<'_, '_>>,
) -> Result<Flat, SetError> {
    let mut flat = Flat::new(alloc);
    while rows.advance()? {
        match add_selected(selection, rule, &rows, &mut flat) {
            Ok(()) => {}
            Err(error) => return Err(error),
        }
    }
    Ok(flat)
}

/// Returns what is selected of tries.
fn combined_of(
    alloc: Global,
    selection: Selection,
    rule: Rule,
    sources: &[Source<'_>],
) -> Result<Flat, SetError> {
    selections_are_of_maps();
    row_errors_are_of_keys();
    let tries = match tries_of(alloc, sources) {
        Ok(tries) => tries,
        Err(error) => return Err(error),
    };
    let streams = match streams_of(alloc, tries.as_slice()) {
        Ok(streams) => streams,
        Err(error) => return Err(error),
    };
    let rows = MergeAll::new(alloc, streams)?;
    match selected_of(alloc, selection, rule, rows) {
        Ok(flat) => Ok(flat),
        Err(error) => Err(error),
    }
}

/// Returns the bytes of the trie of pairs whose keys ascend.
fn bytes_of_flat(
    alloc: Global,
    kind: TrieKind,
    listed: &Flat,
) -> Result<Vec<u8>, ZeroTrieBuildError> {
    let items = items_between(
        alloc,
        listed.keys.as_slice(),
        listed.ends.as_slice(),
        listed.values.as_slice(),
    )?;
    bytes_of_sorted(alloc, kind, items.as_slice())
}

/// Builds the trie of a union, an intersection or a difference of tries of any kinds, in one pass
/// over their pairs in the order of bytes. Writes it to the beginning of `out` if there is room,
/// and sets `len` to its length.
///
/// `selection` is the number of which keys are taken, and `rule` of which value a key gets that
/// more than one trie has. Keys are compared as they are stored. An error is a key that more than
/// one trie has if the rule refuses that, or has with different values if it wants equal ones, a
/// sum of 2^64 or more, bytes that are not valid, or one of a build. Then nothing is written.
pub fn zerotrie_combine(
    alloc: Global,
    selection: u32,
    rule: u32,
    tries: &[Source<'_>],
    kind: u32,
    out: &mut [u8],
    len: &mut usize,
) -> u32 {
    let Some(kind) = kind_of(kind) else {
        return UNKNOWN_KIND;
    };
    let Some((selection, rule)) = plan_with(selection, rule) else {
        return UNKNOWN_SELECTION;
    };
    match combined_of(alloc, selection, rule, tries) {
        Ok(selected) => hand_out_trie(bytes_of_flat(alloc, kind, &selected), out, len),
        Err(error) => set_status_of(error),
    }
}

/// The functions as C calls them: a slice is a pointer and a number of items.
#[allow(unsafe_code)]
mod exports {
    use super::*;

    #[unsafe(no_mangle)]
    unsafe extern "C" fn zerotrie_combine(
        selection: u32,
        rule: u32,
        tries: *const Source<'_>,
        tries_len: usize,
        kind: u32,
        out: *mut u8,
        out_len: usize,
        len: *mut usize,
    ) -> u32 {
        // SAFETY: a caller keeps to what zerotrie.h says.
        unsafe {
            super::zerotrie_combine(
                Global,
                selection,
                rule,
                crate::slice(tries, tries_len),
                kind,
                crate::slice_mut(out, out_len),
                &mut *len,
            )
        }
    }
}
