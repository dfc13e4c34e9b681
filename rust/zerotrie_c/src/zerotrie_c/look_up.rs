// Made from crates/zerotrie_c/src/look_up.rt by rust/make: edit that.
//! Look-ups.

use crate::zerotrie_c::answers::{tell, tell_both};
use crate::zerotrie_c::many::{Finder, look_up_all};
use crate::zerotrie_c::numbers::{DONE, UNKNOWN_KIND, kind_of, trie_of};
use crate::rstd::marker::PhantomData;
use crate::zerotrie_core::{LookUps, Trie, ZeroTrieWithOptions, by_kind, get};

/// The number of keys from which a `LookUps` pays.
const MANY: usize = 64;

/// Returns whether the trie has the key, and then sets `value` to its value.
///
/// A number that no kind has is no error: no key is found.
pub fn zerotrie_get(kind: u32, bytes: &[u8], key: &[u8], value: &mut usize) -> bool {
    match trie_of(kind, bytes) {
        Some(trie) => tell(trie.get(key), value),
        None => false,
    }
}

/// A trie of the kind `K`, in which each key is looked up from the first node.
struct EachAlone<'a, K: ZeroTrieWithOptions> {
    bytes: &'a [u8],
    kind: PhantomData<K>,
}

impl<'a, K: ZeroTrieWithOptions> Finder for EachAlone<'a, K> {
    fn find(&mut self, key: &[u8]) -> Option<usize> {
        get::<K>(self.bytes, key)
    }
}

impl<'a, K: ZeroTrieWithOptions> Finder for LookUps<'a, K> {
    fn find(&mut self, key: &[u8]) -> Option<usize> {
        self.get(key)
    }
}

/// Looks up keys in a trie of the kind `K`: if they are many, each from the target of its first
/// byte.
fn look_up_in<K: ZeroTrieWithOptions>(
    bytes: &[u8],
    keys: &[u8],
    ends: &[usize],
    missing: usize,
    values: &mut [usize],
) {
    if ends.len() < MANY {
        let mut trie = EachAlone::<K> {
            bytes,
            kind: PhantomData,
        };
        look_up_all(&mut trie, keys, ends, missing, values);
    } else {
        let mut trie = LookUps::<K>::new(bytes);
        look_up_all(&mut trie, keys, ends, missing, values);
    }
}

/// Looks up keys and writes the value of each, or `missing` for a key that the trie does not have.
/// The keys are one after another, each up to its end.
///
/// An end past all bytes counts as their end, and an end below the one before it makes an empty
/// key. As many values are written as there are ends and room for values; the rest of the room
/// stays. If no kind has the number, nothing is written.
pub fn zerotrie_get_many(
    kind: u32,
    bytes: &[u8],
    keys: &[u8],
    ends: &[usize],
    missing: usize,
    values: &mut [usize],
) -> u32 {
    match kind_of(kind) {
        Some(kind) => by_kind!(kind, look_up_in::<_>(bytes, keys, ends, missing, values)),
        None => return UNKNOWN_KIND,
    }
    DONE
}

/// Returns whether the text begins with a key, and then sets `len` and `value` to the length and
/// the value of the longest one.
pub fn zerotrie_longest_prefix(
    kind: u32,
    bytes: &[u8],
    text: &[u8],
    len: &mut usize,
    value: &mut usize,
) -> bool {
    match trie_of(kind, bytes) {
        Some(trie) => tell_both(trie.longest_prefix(text), len, value),
        None => false,
    }
}

/// The functions as C calls them: a slice is a pointer and a number of items.
#[allow(unsafe_code)]
mod exports {
    use super::*;

    #[unsafe(no_mangle)]
    unsafe extern "C" fn zerotrie_get(
        kind: u32,
        bytes: *const u8,
        bytes_len: usize,
        key: *const u8,
        key_len: usize,
        value: *mut usize,
    ) -> bool {
        // SAFETY: a caller keeps to what zerotrie.h says.
        unsafe {
            super::zerotrie_get(
                kind,
                crate::slice(bytes, bytes_len),
                crate::slice(key, key_len),
                &mut *value,
            )
        }
    }

    #[unsafe(no_mangle)]
    unsafe extern "C" fn zerotrie_get_many(
        kind: u32,
        bytes: *const u8,
        bytes_len: usize,
        keys: *const u8,
        keys_len: usize,
        ends: *const usize,
        ends_len: usize,
        missing: usize,
        values: *mut usize,
        values_len: usize,
    ) -> u32 {
        // SAFETY: a caller keeps to what zerotrie.h says.
        unsafe {
            super::zerotrie_get_many(
                kind,
                crate::slice(bytes, bytes_len),
                crate::slice(keys, keys_len),
                crate::slice(ends, ends_len),
                missing,
                crate::slice_mut(values, values_len),
            )
        }
    }

    #[unsafe(no_mangle)]
    unsafe extern "C" fn zerotrie_longest_prefix(
        kind: u32,
        bytes: *const u8,
        bytes_len: usize,
        text: *const u8,
        text_len: usize,
        len: *mut usize,
        value: *mut usize,
    ) -> bool {
        // SAFETY: a caller keeps to what zerotrie.h says.
        unsafe {
            super::zerotrie_longest_prefix(
                kind,
                crate::slice(bytes, bytes_len),
                crate::slice(text, text_len),
                &mut *len,
                &mut *value,
            )
        }
    }
}
