// Made from crates/zerotrie_c/src/searches.rt by rust/make: edit that.
//! Searches, a part at a time.

use crate::zerotrie_c::folding;
use crate::zerotrie_c::folding::FoldedTexts;
use crate::zerotrie_c::numbers::{
    DONE, MALFORMED_SEARCH, OUT_OF_MEMORY, SEARCH_TOO_LONG, TOO_MANY_EDITS, UNKNOWN_KIND,
    UNKNOWN_SEARCH, trie_of,
};
use crate::zerotrie_c::parts::{Page, fill};
use crate::rstd::alloc::Global;
use crate::rstd::ops::Bound;
use crate::zerotrie_core::TrieKind;
use crate::zerotrie_search::{
    AnyAutomaton, Automaton, BeginsWith, Both, ByKind, KeyRange, KindPrefix, Search as _, SearchBy,
    WordError, ZeroTrieSearch, ZeroTrieSorted, by_automaton,
};

/// What is searched, with C's layout. `by` is the number of how keys are found, and the bounds are
/// numbers too.
#[repr(C)]
#[derive(Clone, Copy)]
pub struct Search<'q> {
    pub by: u32,
    pub edits: u32,
    pub from_bound: u32,
    pub to_bound: u32,
    pub text: crate::Slice<'q>,
    pub to: crate::Slice<'q>,
    pub beginnings: bool,
}

/// Returns the bound with this number at a key, or `None` if no bound has it.
pub fn bound_with(number: u32, key: &[u8]) -> Option<Bound<&[u8]>> {
    match number {
        0 => Some(Bound::Unbounded),
        1 => Some(Bound::Included(key)),
        2 => Some(Bound::Excluded(key)),
        _ => None,
    }
}

/// Returns how a word finds keys, by the number of the search, or `None` if no search of a word has it.
pub fn search_by(number: u32, edits: u32) -> Option<SearchBy> {
    match number {
        1 => Some(SearchBy::Glob),
        2 => Some(SearchBy::Subsequence),
        3 => Some(SearchBy::Fuzzy(edits)),
        4 => Some(SearchBy::FuzzyChars(edits)),
        5 => Some(SearchBy::Swaps(edits)),
        6 => Some(SearchBy::SwapsChars(edits)),
        7 => Some(SearchBy::GlobChars),
        _ => None,
    }
}

/// Returns the automaton of a word for keys as a kind compares them, or the status of what is wrong with
/// the word.
pub fn word_of(kind: TrieKind, by: SearchBy, word: &[u8]) -> Result<AnyAutomaton<'_>, u32> {
    match AnyAutomaton::by_kind(kind, by, word) {
        Ok(any) => Ok(any),
        Err(WordError::Malformed) => Err(MALFORMED_SEARCH),
        Err(WordError::TooLong) => Err(SEARCH_TOO_LONG),
        Err(WordError::TooManyEdits) => Err(TOO_MANY_EDITS),
    }
}

/// Returns the automaton of a search for keys as a kind compares them, or the status of its fault.
fn sought_of<'q>(kind: TrieKind, search: &Search<'q>) -> Result<AnyAutomaton<'q>, u32> {
    if let Some(by) = search_by(search.by, search.edits) {
        return word_of(kind, by, search.text.get());
    }
    if search.by != 0 {
        return Err(UNKNOWN_SEARCH);
    }
    let from = bound_with(search.from_bound, search.text.get()).ok_or(UNKNOWN_SEARCH)?;
    let to = bound_with(search.to_bound, search.to.get()).ok_or(UNKNOWN_SEARCH)?;
    Ok(AnyAutomaton::Range(KeyRange { from, to }))
}

/// Returns the automaton of a search with its texts as a kind compares them. Where case counts it is
/// that of the search with its texts as they are, which is not made again.
fn folded_of<'q>(
    kind: TrieKind,
    sought: AnyAutomaton<'q>,
    folded: &Search<'q>,
) -> Result<AnyAutomaton<'q>, u32> {
    if folding::ignores_case(kind) {
        sought_of(kind, folded)
    } else {
        Ok(sought)
    }
}

/// Returns the status of a search without a trie: `DONE` if it has a meaning, and else its fault,
/// which is what `zerotrie_search_some` returns for it.
pub fn zerotrie_search_check(search: &Search<'_>) -> u32 {
    match sought_of(TrieKind::Simple, search) {
        Ok(_) => DONE,
        Err(status) => status,
    }
}

/// Returns the lower bound of what a listing has left: above the last key that it gave, if it goes on.
fn bound_after(goes_on: bool, last: &[u8]) -> Bound<&[u8]> {
    if goes_on {
        Bound::Excluded(last)
    } else {
        Bound::Unbounded
    }
}

/// What is searched: the pairs that are left, of these the keys with a prefix, and whether keys need only
/// begin with one that is found.
struct Asked<'t, 'p> {
    pairs: ZeroTrieSorted<'t, 'p>,
    prefix: KindPrefix<'p>,
    beginnings: bool,
}

/// Writes the next pairs whose keys an automaton accepts as their kind compares them.
fn fill_accepted<T: Automaton>(
    alloc: Global,
    asked: Asked<'_, '_>,
    automaton: T,
    next_len: usize,
    keys: &mut [u8],
    ends: &mut [usize],
    values: &mut [usize],
) -> Page {
    let (pairs, prefix) = (asked.pairs, asked.prefix);
    if asked.beginnings {
        let begins = Both(BeginsWith(ByKind(prefix.kind, automaton)), prefix);
        let begun = ZeroTrieSearch::new(alloc, pairs, begins);
        return fill(Ok(begun), next_len, keys, ends, values);
    }
    if folding::ignores_case(prefix.kind) {
        let folds = Both(ByKind(prefix.kind, automaton), prefix);
        let folded = ZeroTrieSearch::new(alloc, pairs, folds);
        return fill(Ok(folded), next_len, keys, ends, values);
    }
    let search = ZeroTrieSearch::new(alloc, pairs, Both(automaton, prefix));
    fill(Ok(search), next_len, keys, ends, values)
}

/// Writes the next pairs that are sought, with keys as their kind compares them.
fn fill_sought(
    alloc: Global,
    asked: Asked<'_, '_>,
    sought: AnyAutomaton<'_>,
    next_len: usize,
    keys: &mut [u8],
    ends: &mut [usize],
    values: &mut [usize],
) -> Page {
    by_automaton!(sought, automaton => fill_accepted(
        alloc, asked, automaton, next_len, keys, ends, values,
    ))
}

/// Writes the pairs that a search finds, of those whose keys begin with a prefix, in the order of bytes
/// in every kind, as many as the rooms have places for: a range, a pattern, bytes in their order, or a word
/// with few edits, and with `beginnings` also the keys that begin with one that it finds.
///
/// If `goes_on`, it continues above the key `last`. The rooms, `count`, `next_len` and the status are as in
/// `zerotrie_list_some`. In the kind that ignores case, keys, bounds and words are compared in lower case,
/// and the letters of a pattern are taken in both cases. A search that has no meaning is refused, and then
/// nothing is written.
///
/// On malformed bytes it does the same for some pairs that the search finds, at most as many as there are
/// bytes.
pub fn zerotrie_search_some(
    alloc: Global,
    kind: u32,
    bytes: &[u8],
    prefix: &[u8],
    search: &Search<'_>,
    goes_on: bool,
    last: &[u8],
    keys: &mut [u8],
    ends: &mut [usize],
    values: &mut [usize],
    count: &mut usize,
    next_len: &mut usize,
) -> u32 {
    let Some(trie) = trie_of(kind, bytes) else {
        return UNKNOWN_KIND;
    };
    let sought = match sought_of(trie.kind, search) {
        Ok(sought) => sought,
        Err(status) => return status,
    };
    let Ok(texts) = FoldedTexts::new(alloc, trie.kind, search) else {
        let none = Page::new(OUT_OF_MEMORY, 0, *next_len);
        return none.unpack(count, next_len);
    };
    let sought = match folded_of(trie.kind, sought, &texts.in_place_of(search)) {
        Ok(sought) => sought,
        Err(status) => return status,
    };
    let Ok(pairs) = trie.stream_sorted(alloc, bound_after(goes_on, last), Bound::Unbounded) else {
        return Page::new(OUT_OF_MEMORY, 0, *next_len).unpack(count, next_len);
    };
    let asked = Asked {
        pairs,
        prefix: KindPrefix {
            kind: trie.kind,
            prefix,
        },
        beginnings: search.beginnings,
    };
    fill_sought(alloc, asked, sought, *next_len, keys, ends, values).unpack(count, next_len)
}

/// The functions as C calls them: a slice is a pointer and a number of items.
#[allow(unsafe_code)]
mod exports {
    use super::*;

    #[unsafe(no_mangle)]
    unsafe extern "C" fn zerotrie_search_check(search: *const Search<'_>) -> u32 {
        // SAFETY: a caller keeps to what zerotrie.h says.
        unsafe {
            super::zerotrie_search_check(&*search)
        }
    }

    #[unsafe(no_mangle)]
    unsafe extern "C" fn zerotrie_search_some(
        kind: u32,
        bytes: *const u8,
        bytes_len: usize,
        prefix: *const u8,
        prefix_len: usize,
        search: *const Search<'_>,
        goes_on: bool,
        last: *const u8,
        last_len: usize,
        keys: *mut u8,
        keys_len: usize,
        ends: *mut usize,
        ends_len: usize,
        values: *mut usize,
        values_len: usize,
        count: *mut usize,
        next_len: *mut usize,
    ) -> u32 {
        // SAFETY: a caller keeps to what zerotrie.h says.
        unsafe {
            super::zerotrie_search_some(
                Global,
                kind,
                crate::slice(bytes, bytes_len),
                crate::slice(prefix, prefix_len),
                &*search,
                goes_on,
                crate::slice(last, last_len),
                crate::slice_mut(keys, keys_len),
                crate::slice_mut(ends, ends_len),
                crate::slice_mut(values, values_len),
                &mut *count,
                &mut *next_len,
            )
        }
    }
}
