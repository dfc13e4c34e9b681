// Made from crates/zerotrie_c/src/diffs.rt by rust/make: edit that.
//! What changed from one trie to another, a part at a time.

use crate::zerotrie_c::numbers::{
    BUFFER_TOO_SMALL, DONE, MALFORMED_TRIE, OUT_OF_MEMORY, UNKNOWN_KIND, UNKNOWN_SEARCH, trie_of,
};
use crate::zerotrie_c::parts::put_at;
use crate::zerotrie_c::sets::{SetError, Source, set_status_of};
use crate::zerotrie_c::sorted::bounds_with;
use crate::rstd::alloc::Global;
use crate::rstd::ops::Bound;
use crate::zerotrie_core::TrieRef;
use crate::zerotrie_search::Search;
use crate::zerotrie_sets::{Change, Diff, SortedTrie};

/// How a key changed, with C's layout: where the key ends, its values before and after, and the
/// number of how it changed.
#[repr(C)]
#[derive(Clone, Copy)]
pub struct Changed {
    pub key_end: usize,
    pub before: usize,
    pub after: usize,
    pub how: u32,
}

/// Returns how the key that ends here changed. A value that it does not have is 0.
fn told_change(key_end: usize, change: Change) -> Changed {
    match change {
        Change::Added(value) => Changed {
            key_end,
            before: 0,
            after: value,
            how: 0,
        },
        Change::Removed(value) => Changed {
            key_end,
            before: value,
            after: 0,
            how: 1,
        },
        Change::Changed(first, second) => Changed {
            key_end,
            before: first,
            after: second,
            how: 2,
        },
    }
}

/// Returns the pairs of a trie between two bounds in the order of bytes.
fn sorted_of<'t>(
    alloc: Global,
    trie: &'t TrieRef<'_>,
    from: Bound<&[u8]>,
    to: Bound<&'t [u8]>,
) -> Result<SortedTrie<'t, 't>, SetError> {
    let Ok(pairs) = trie.stream_sorted(alloc, from, to) else {
        return Err(SetError::OutOfMemory);
    };
    match SortedTrie::validated(pairs) {
        Some(stream) => Ok(stream),
        None => Err(SetError::Malformed),
    }
}

/// Writes the next changes, as many as the rooms have places for.
fn write_changes(
    mut diff: Diff<SortedTrie<'_, '_>, SortedTrie<'_, '_>>,
    keys: &mut [u8],
    changes: &mut [Changed],
    count: &mut usize,
    next_len: &mut usize,
) -> u32 {
    *count = 0;
    let mut used = 0;
    loop {
        match diff.advance() {
            Ok(true) => {}
            Ok(false) => {
                *next_len = 0;
                return DONE;
            }
            Err(_) => return OUT_OF_MEMORY,
        }
        let key = diff.key();
        if *count >= changes.len() || key.len() > keys.len() - used {
            *next_len = key.len();
            return BUFFER_TOO_SMALL;
        }
        put_at(key, keys, used);
        used += key.len();
        changes[*count] = told_change(used, diff.change());
        *count += 1;
    }
}

/// Writes what changed from the pairs of one trie between two bounds to those of another one, in the
/// order of bytes, as much as the rooms have places for: the keys one after another, and how each
/// changed. A key that both have with one value is passed over. To continue after the last key that a
/// call wrote, give that key as an excluded lower bound.
///
/// The rooms, `count`, `next_len` and the status are as in `zerotrie_list_some`. If no kind or no
/// bound has the number, or bytes are not valid, nothing is written. A call validates the bytes of
/// both tries, and reads the pairs of both from the lower bound on.
pub fn zerotrie_diff_some(
    alloc: Global,
    first: &Source<'_>,
    second: &Source<'_>,
    from_bound: u32,
    from: &[u8],
    to_bound: u32,
    to: &[u8],
    keys: &mut [u8],
    changes: &mut [Changed],
    count: &mut usize,
    next_len: &mut usize,
) -> u32 {
    let Some(old) = trie_of(first.kind, first.nodes.get()) else {
        return UNKNOWN_KIND;
    };
    let Some(new) = trie_of(second.kind, second.nodes.get()) else {
        return UNKNOWN_KIND;
    };
    let Some((from, to)) = bounds_with(from_bound, from, to_bound, to) else {
        return UNKNOWN_SEARCH;
    };
    let old = match sorted_of(alloc, &old, from, to) {
        Ok(pairs) => pairs,
        Err(error) => return set_status_of(error),
    };
    match sorted_of(alloc, &new, from, to) {
        Ok(new) => write_changes(Diff::new(old, new), keys, changes, count, next_len),
        Err(error) => set_status_of(error),
    }
}

/// The functions as C calls them: a slice is a pointer and a number of items.
#[allow(unsafe_code)]
mod exports {
    use super::*;

    #[unsafe(no_mangle)]
    unsafe extern "C" fn zerotrie_diff_some(
        first: *const Source<'_>,
        second: *const Source<'_>,
        from_bound: u32,
        from: *const u8,
        from_len: usize,
        to_bound: u32,
        to: *const u8,
        to_len: usize,
        keys: *mut u8,
        keys_len: usize,
        changes: *mut Changed,
        changes_len: usize,
        count: *mut usize,
        next_len: *mut usize,
    ) -> u32 {
        // SAFETY: a caller keeps to what zerotrie.h says.
        unsafe {
            super::zerotrie_diff_some(
                Global,
                &*first,
                &*second,
                from_bound,
                crate::slice(from, from_len),
                to_bound,
                crate::slice(to, to_len),
                crate::slice_mut(keys, keys_len),
                crate::slice_mut(changes, changes_len),
                &mut *count,
                &mut *next_len,
            )
        }
    }
}
