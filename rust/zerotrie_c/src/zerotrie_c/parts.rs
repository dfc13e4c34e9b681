// Made from crates/zerotrie_c/src/parts.rt by rust/make: edit that.
//! Listings, a part at a time.

use crate::zerotrie_c::numbers::{BUFFER_TOO_SMALL, DONE, OUT_OF_MEMORY, UNKNOWN_KIND, trie_of};
use crate::rstd::alloc::{AllocError, Global};
use crate::zerotrie_core::{Trie, TrieRef, ZeroTrieStream, by_kind};
use crate::zerotrie_search::TrieListing;

/// What a call for a part of a listing tells: its status, how many pairs it wrote, and the length of
/// the next key.
#[derive(Clone, Copy)]
pub struct Page {
    pub status: u32,
    pub count: usize,
    pub next_len: usize,
}

impl Page {
    /// Returns a page of these numbers.
    pub fn new(status: u32, count: usize, next_len: usize) -> Self {
        Page {
            status,
            count,
            next_len,
        }
    }

    /// Sets the numbers of the page, and returns its status.
    pub fn unpack(self, count: &mut usize, next_len: &mut usize) -> u32 {
        *count = self.count;
        *next_len = self.next_len;
        self.status
    }
}

/// Copies bytes into the room at a place.
pub fn put_at(bytes: &[u8], room: &mut [u8], place: usize) {
    let (_, rest) = room.split_at_mut(place);
    let (part, _) = rest.split_at_mut(bytes.len());
    part.copy_from_slice(bytes);
}

/// Writes the next pairs of a listing, as many as the rooms have places for. Without a listing, an
/// allocation failed.
pub fn fill<L: TrieListing>(
    listing: Result<L, AllocError>,
    next_len: usize,
    keys: &mut [u8],
    ends: &mut [usize],
    values: &mut [usize],
) -> Page {
    let Ok(mut pairs) = listing else {
        return Page::new(OUT_OF_MEMORY, 0, next_len);
    };
    let mut count = 0;
    let mut used = 0;
    let room = ends.len().min(values.len());
    loop {
        match pairs.advance() {
            Ok(true) => {}
            Ok(false) => return Page::new(DONE, count, 0),
            Err(_) => return Page::new(OUT_OF_MEMORY, count, next_len),
        }
        let key = pairs.key();
        if count >= room || key.len() > keys.len() - used {
            return Page::new(BUFFER_TOO_SMALL, count, key.len());
        }
        put_at(key, keys, used);
        used += key.len();
        ends[count] = used;
        values[count] = pairs.value();
        count += 1;
    }
}

/// Returns the pairs of a prefix that are left of a listing, in the order of the trie.
pub fn left_of<'a>(
    alloc: Global,
    trie: &'a TrieRef<'_>,
    prefix: &[u8],
    goes_on: bool,
    last: &[u8],
) -> Result<ZeroTrieStream<'a>, AllocError> {
    if !goes_on {
        return trie.stream_prefix(alloc, prefix);
    }
    by_kind!(
        trie.kind,
        ZeroTrieStream::after::<_>(alloc, trie.bytes, prefix, last)
    )
}

/// Writes the next pairs whose keys begin with a prefix, as many as the rooms have places for: the
/// keys one after another, where each ends, and the values. If `goes_on`, it continues after the
/// key `last`, which the call before wrote last; otherwise it begins with the first pair.
///
/// The status is `DONE` if no pair is left, and then `next_len` is 0. If the next pair has no room,
/// `next_len` is the length of its key. If an allocation fails, the pairs that `count` counts are
/// written, and `next_len` stays. If no kind has the number, nothing is written. A call costs a
/// look-up of `last`, and reads no pair before it.
///
/// On malformed bytes it does the same for some pairs, at most as many as there are bytes.
pub fn zerotrie_list_some(
    alloc: Global,
    kind: u32,
    bytes: &[u8],
    prefix: &[u8],
    goes_on: bool,
    last: &[u8],
    keys: &mut [u8],
    ends: &mut [usize],
    values: &mut [usize],
    count: &mut usize,
    next_len: &mut usize,
) -> u32 {
    let Some(trie) = trie_of(kind, bytes) else {
        return UNKNOWN_KIND;
    };
    let pairs = left_of(alloc, &trie, prefix, goes_on, last);
    fill(pairs, *next_len, keys, ends, values).unpack(count, next_len)
}

/// The functions as C calls them: a slice is a pointer and a number of items.
#[allow(unsafe_code)]
mod exports {
    use super::*;

    #[unsafe(no_mangle)]
    unsafe extern "C" fn zerotrie_list_some(
        kind: u32,
        bytes: *const u8,
        bytes_len: usize,
        prefix: *const u8,
        prefix_len: usize,
        goes_on: bool,
        last: *const u8,
        last_len: usize,
        keys: *mut u8,
        keys_len: usize,
        ends: *mut usize,
        ends_len: usize,
        values: *mut usize,
        values_len: usize,
        count: *mut usize,
        next_len: *mut usize,
    ) -> u32 {
        // SAFETY: a caller keeps to what zerotrie.h says.
        unsafe {
            super::zerotrie_list_some(
                Global,
                kind,
                crate::slice(bytes, bytes_len),
                crate::slice(prefix, prefix_len),
                goes_on,
                crate::slice(last, last_len),
                crate::slice_mut(keys, keys_len),
                crate::slice_mut(ends, ends_len),
                crate::slice_mut(values, values_len),
                &mut *count,
                &mut *next_len,
            )
        }
    }
}
