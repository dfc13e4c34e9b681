// Made from crates/zerotrie_c/src/nearest.rt by rust/make: edit that.
//! The keys that few edits make of a word, the nearest first.

use crate::zerotrie_c::folding::fold_copy;
use crate::zerotrie_c::numbers::{
    BUFFER_TOO_SMALL, DONE, OUT_OF_MEMORY, UNKNOWN_KIND, UNKNOWN_SEARCH, trie_of,
};
use crate::zerotrie_c::parts::{Page, put_at};
use crate::zerotrie_c::searches::{search_by, word_of};
use crate::rstd::alloc::Global;
use crate::zerotrie_search::{AnyAutomaton, ByKind, Fuzzy, Search, SearchBy, ZeroTrieNearest};

/// Returns how edits are counted, by the number of the search, or `None` if no search with edits has it.
fn edits_by(number: u32, edits: u32) -> Option<SearchBy> {
    match number {
        3..=6 => search_by(number, edits),
        _ => None,
    }
}

/// Writes the next pairs of a listing of the nearest, as many as the rooms have places for.
fn fill_nearest<T: Fuzzy>(
    mut pairs: ZeroTrieNearest<'_, T>,
    next_len: usize,
    keys: &mut [u8],
    ends: &mut [usize],
    values: &mut [usize],
    distances: &mut [usize],
) -> Page {
    let mut count = 0;
    let mut used = 0;
    let room = ends.len().min(values.len()).min(distances.len());
    loop {
        match pairs.advance() {
            Ok(true) => {}
            Ok(false) => return Page::new(DONE, count, 0),
            Err(_) => return Page::new(OUT_OF_MEMORY, count, next_len),
        }
        let key = pairs.key();
        if count >= room || key.len() > keys.len() - used {
            return Page::new(BUFFER_TOO_SMALL, count, key.len());
        }
        put_at(key, keys, used);
        used += key.len();
        ends[count] = used;
        values[count] = pairs.value();
        distances[count] = pairs.distance();
        count += 1;
    }
}

/// Writes the pairs whose keys at most `edits` edits make of a word, the nearest first, and those that
/// are as near in the order of bytes, as many as the rooms have places for: the keys one after another,
/// where each ends, the values, and how many edits make each key.
///
/// `by` is the number of a search with edits, which says how they are counted. The rooms, `count`,
/// `next_len` and the status are as in `zerotrie_list_some`, and a call does not continue. If no kind or
/// no search with edits has the number, or the word is refused, nothing is written. It searches once
/// for each number of edits, as far as there is room.
///
/// In the kind that ignores case, keys and the word are compared in lower case.
pub fn zerotrie_nearest(
    alloc: Global,
    kind: u32,
    bytes: &[u8],
    by: u32,
    word: &[u8],
    edits: u32,
    keys: &mut [u8],
    ends: &mut [usize],
    values: &mut [usize],
    distances: &mut [usize],
    count: &mut usize,
    next_len: &mut usize,
) -> u32 {
    let Some(trie) = trie_of(kind, bytes) else {
        return UNKNOWN_KIND;
    };
    let Some(by) = edits_by(by, edits) else {
        return UNKNOWN_SEARCH;
    };
    if let Err(status) = word_of(trie.kind, by, word) {
        return status;
    }
    let Ok(folded) = fold_copy(alloc, trie.kind, by, word) else {
        return Page::new(OUT_OF_MEMORY, 0, *next_len).unpack(count, next_len);
    };
    let sought = match word_of(trie.kind, by, folded.as_slice()) {
        Ok(sought) => sought,
        Err(status) => return status,
    };
    match sought {
        AnyAutomaton::Fuzzy(near) => {
            let pairs = trie.nearest(alloc, ByKind(trie.kind, near));
            fill_nearest(pairs, *next_len, keys, ends, values, distances).unpack(count, next_len)
        }
        AnyAutomaton::FuzzyChars(near) => {
            let pairs = trie.nearest(alloc, ByKind(trie.kind, near));
            fill_nearest(pairs, *next_len, keys, ends, values, distances).unpack(count, next_len)
        }
        AnyAutomaton::Swaps(near) => {
            let pairs = trie.nearest(alloc, ByKind(trie.kind, near));
            fill_nearest(pairs, *next_len, keys, ends, values, distances).unpack(count, next_len)
        }
        AnyAutomaton::SwapsChars(near) => {
            let pairs = trie.nearest(alloc, ByKind(trie.kind, near));
            fill_nearest(pairs, *next_len, keys, ends, values, distances).unpack(count, next_len)
        }
        AnyAutomaton::Prefix(_)
        | AnyAutomaton::Range(_)
        | AnyAutomaton::Glob(_)
        | AnyAutomaton::GlobChars(_)
        | AnyAutomaton::Subsequence(_) => UNKNOWN_SEARCH,
    }
}

/// The functions as C calls them: a slice is a pointer and a number of items.
#[allow(unsafe_code)]
mod exports {
    use super::*;

    #[unsafe(no_mangle)]
    unsafe extern "C" fn zerotrie_nearest(
        kind: u32,
        bytes: *const u8,
        bytes_len: usize,
        by: u32,
        word: *const u8,
        word_len: usize,
        edits: u32,
        keys: *mut u8,
        keys_len: usize,
        ends: *mut usize,
        ends_len: usize,
        values: *mut usize,
        values_len: usize,
        distances: *mut usize,
        distances_len: usize,
        count: *mut usize,
        next_len: *mut usize,
    ) -> u32 {
        // SAFETY: a caller keeps to what zerotrie.h says.
        unsafe {
            super::zerotrie_nearest(
                Global,
                kind,
                crate::slice(bytes, bytes_len),
                by,
                crate::slice(word, word_len),
                edits,
                crate::slice_mut(keys, keys_len),
                crate::slice_mut(ends, ends_len),
                crate::slice_mut(values, values_len),
                crate::slice_mut(distances, distances_len),
                &mut *count,
                &mut *next_len,
            )
        }
    }
}
