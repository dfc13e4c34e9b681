//! The functions of `zerotrie.h`, and what they take. The programs of benches/ and tests/hostile/ call them by these declarations, too.
#![allow(dead_code)]

use std::ops::Bound;

#[repr(C)]
pub struct Bytes(pub *const u8, pub usize);

#[repr(C)]
pub struct KeyAndValue(pub Bytes, pub usize);

#[repr(C)]
pub struct Trie(pub u32, pub Bytes);

#[repr(C)]
pub struct Cursor(pub usize, pub usize, pub usize);

#[repr(C)]
pub struct SearchBy {
    pub by: u32,
    pub edits: u32,
    pub from_bound: u32,
    pub to_bound: u32,
    pub text: Bytes,
    pub to: Bytes,
    pub beginnings: bool,
}

#[repr(C)]
#[derive(Clone, Copy, Default)]
pub struct Change {
    pub key_end: usize,
    pub before: usize,
    pub after: usize,
    pub how: u32,
}

#[rustfmt::skip]
unsafe extern "C" {
    pub fn zerotrie_build(kind: u32, pairs: *const KeyAndValue, count: usize, out: *mut u8, room: usize, len: &mut usize) -> u32;
    pub fn zerotrie_build_sorted(kind: u32, pairs: *const KeyAndValue, count: usize, out: *mut u8, room: usize, len: &mut usize) -> u32;
    pub fn zerotrie_build_many(kind: u32, keys: *const u8, keys_len: usize, ends: *const usize, ends_len: usize, values: *const usize, values_len: usize, out: *mut u8, room: usize, len: &mut usize) -> u32;
    pub fn zerotrie_build_bound(count: usize, key_bytes: usize) -> usize;
    pub fn zerotrie_encoded_len(kind: u32, pairs: *const KeyAndValue, count: usize, len: &mut usize) -> u32;
    pub fn zerotrie_why_refused(kind: u32, pairs: *const KeyAndValue, count: usize, first: &mut usize, second: &mut usize) -> u32;
    pub fn zerotrie_get(kind: u32, bytes: *const u8, len: usize, key: *const u8, key_len: usize, value: &mut usize) -> bool;
    pub fn zerotrie_get_many(kind: u32, bytes: *const u8, len: usize, keys: *const u8, keys_len: usize, ends: *const usize, ends_len: usize, missing: usize, values: *mut usize, values_len: usize) -> u32;
    pub fn zerotrie_longest_prefix(kind: u32, bytes: *const u8, len: usize, text: *const u8, text_len: usize, key_len: &mut usize, value: &mut usize) -> bool;
    pub fn zerotrie_longest_prefix_at(kind: u32, bytes: *const u8, len: usize, text: *const u8, text_len: usize, delimiters: *const u8, delimiters_len: usize, key_len: &mut usize, value: &mut usize) -> bool;
    pub fn zerotrie_common_prefixes(kind: u32, bytes: *const u8, len: usize, text: *const u8, text_len: usize, lens: *mut usize, lens_room: usize, values: *mut usize, values_room: usize) -> usize;
    pub fn zerotrie_is_well_formed(kind: u32, bytes: *const u8, len: usize) -> bool;
    pub fn zerotrie_first_fault(kind: u32, bytes: *const u8, len: usize, at: &mut usize) -> u32;
    pub fn zerotrie_list(kind: u32, bytes: *const u8, len: usize, prefix: *const u8, prefix_len: usize, keys: *mut u8, keys_room: usize, ends: *mut usize, ends_room: usize, values: *mut usize, values_room: usize, key_bytes: &mut usize, count: &mut usize) -> u32;
    pub fn zerotrie_list_some(kind: u32, bytes: *const u8, len: usize, prefix: *const u8, prefix_len: usize, goes_on: bool, last: *const u8, last_len: usize, keys: *mut u8, keys_room: usize, ends: *mut usize, ends_room: usize, values: *mut usize, values_room: usize, count: &mut usize, next_len: &mut usize) -> u32;
    pub fn zerotrie_sorted_some(kind: u32, bytes: *const u8, len: usize, from_bound: u32, from: *const u8, from_len: usize, to_bound: u32, to: *const u8, to_len: usize, keys: *mut u8, keys_room: usize, ends: *mut usize, ends_room: usize, values: *mut usize, values_room: usize, count: &mut usize, next_len: &mut usize) -> u32;
    pub fn zerotrie_last_within(kind: u32, bytes: *const u8, len: usize, from_bound: u32, from: *const u8, from_len: usize, to_bound: u32, to: *const u8, to_len: usize, key: *mut u8, key_room: usize, key_len: &mut usize, value: &mut usize) -> u32;
    pub fn zerotrie_nearest(kind: u32, bytes: *const u8, len: usize, by: u32, word: *const u8, word_len: usize, edits: u32, keys: *mut u8, keys_room: usize, ends: *mut usize, ends_room: usize, values: *mut usize, values_room: usize, distances: *mut usize, distances_room: usize, count: &mut usize, next_len: &mut usize) -> u32;
    pub fn zerotrie_diff_some(first: &Trie, second: &Trie, from_bound: u32, from: *const u8, from_len: usize, to_bound: u32, to: *const u8, to_len: usize, keys: *mut u8, keys_room: usize, changes: *mut Change, changes_room: usize, count: &mut usize, next_len: &mut usize) -> u32;
    pub fn zerotrie_first_key_of(kind: u32, bytes: *const u8, len: usize, value: usize, key: *mut u8, key_room: usize, key_len: &mut usize) -> u32;
    pub fn zerotrie_reverse_places(kind: u32, bytes: *const u8, len: usize, places: *mut u32, room: usize, count: &mut usize) -> u32;
    pub fn zerotrie_reverse_key(kind: u32, bytes: *const u8, len: usize, places: *const u32, places_len: usize, value: usize, key: *mut u8, key_room: usize, key_len: &mut usize) -> u32;
    pub fn zerotrie_combine(selection: u32, rule: u32, tries: *const Trie, count: usize, kind: u32, out: *mut u8, room: usize, len: &mut usize) -> u32;
    pub fn zerotrie_search_some(kind: u32, bytes: *const u8, len: usize, prefix: *const u8, prefix_len: usize, search: &SearchBy, goes_on: bool, last: *const u8, last_len: usize, keys: *mut u8, keys_room: usize, ends: *mut usize, ends_room: usize, values: *mut usize, values_room: usize, count: &mut usize, next_len: &mut usize) -> u32;
    pub fn zerotrie_cursor_new(bytes: *const u8, len: usize) -> Cursor;
    pub fn zerotrie_with_prefix(kind: u32, bytes: *const u8, len: usize, prefix: *const u8, prefix_len: usize) -> Cursor;
    pub fn zerotrie_cursor_step(kind: u32, bytes: *const u8, len: usize, cursor: &mut Cursor, byte: u8, edge: &mut u8) -> bool;
    pub fn zerotrie_cursor_probe(kind: u32, bytes: *const u8, len: usize, cursor: &mut Cursor, index: usize, edge: &mut u8, siblings: &mut u16) -> bool;
    pub fn zerotrie_cursor_take_value(bytes: *const u8, len: usize, cursor: &mut Cursor, value: &mut usize) -> bool;
    pub fn zerotrie_auto_kind(pairs: *const KeyAndValue, count: usize) -> u32;
    pub fn zerotrie_tagged(kind: u32, bytes: *const u8, len: usize, out: *mut u8, room: usize, tagged: &mut usize) -> u32;
    pub fn zerotrie_tagged_kind(tagged: *const u8, len: usize, kind: &mut u32) -> u32;
    pub fn zerotrie_seal(kind: u32, bytes: *const u8, len: usize, out: *mut u8, room: usize, sealed: &mut usize) -> u32;
    pub fn zerotrie_open(file: *const u8, len: usize, kind: &mut u32, at: &mut usize, trie_len: &mut usize) -> u32;
    pub fn zerotrie_dense_build(prefixes: *const u8, prefixes_len: usize, prefix_ends: *const usize, prefix_count: usize, suffixes: *const u8, suffixes_len: usize, suffix_ends: *const usize, suffix_count: usize, values: *const usize, value_count: usize, delimiter: u8, out: *mut u8, room: usize, len: &mut usize) -> u32;
    pub fn zerotrie_dense_get(record: *const u8, len: usize, prefix: *const u8, prefix_len: usize, suffix: *const u8, suffix_len: usize, value: &mut usize) -> u32;
    pub fn zerotrie_index_build_many(seed: u64, keys: *const u8, keys_len: usize, ends: *const usize, ends_len: usize, values: *const usize, values_len: usize, out: *mut u8, room: usize, len: &mut usize) -> u32;
    pub fn zerotrie_index_build(seed: u64, pairs: *const KeyAndValue, count: usize, out: *mut u8, room: usize, len: &mut usize) -> u32;
    pub fn zerotrie_index_get(bytes: *const u8, len: usize, key: *const u8, key_len: usize, value: &mut usize) -> bool;
    pub fn zerotrie_index_get_many(bytes: *const u8, len: usize, keys: *const u8, keys_len: usize, ends: *const usize, ends_len: usize, missing: usize, values: *mut usize, values_len: usize) -> u32;
    pub fn zerotrie_index_is_valid(bytes: *const u8, len: usize) -> bool;
    pub fn zerotrie_seal_index(index: *const u8, len: usize, out: *mut u8, room: usize, sealed: &mut usize) -> u32;
    pub fn zerotrie_open_index(file: *const u8, len: usize, at: &mut usize, index_len: &mut usize) -> u32;
}

pub fn all(bytes: &[u8]) -> Bytes {
    Bytes(bytes.as_ptr(), bytes.len())
}

pub fn lent(pairs: &[(&[u8], usize)]) -> Vec<KeyAndValue> {
    pairs.iter().map(|(key, value)| KeyAndValue(all(key), *value)).collect()
}

pub fn bound(bound: Bound<&[u8]>) -> (u32, &[u8]) {
    match bound {
        Bound::Unbounded => (0, b""),
        Bound::Included(key) => (1, key),
        Bound::Excluded(key) => (2, key),
    }
}

/// Calls a function. What is in brackets is a slice, which C has as a pointer and a length.
#[allow(unused_macros)]
macro_rules! call {
    (@ $function:ident [$($done:tt)*]) => { unsafe { $function($($done)*) } };
    (@ $function:ident [$($done:tt)*] [mut $slice:expr] $(, $($rest:tt)*)?) => {
        call!(@ $function [$($done)* $slice.as_mut_ptr(), $slice.len(),] $($($rest)*)?)
    };
    (@ $function:ident [$($done:tt)*] [$slice:expr] $(, $($rest:tt)*)?) => {
        call!(@ $function [$($done)* $slice.as_ptr(), $slice.len(),] $($($rest)*)?)
    };
    (@ $function:ident [$($done:tt)*] $value:expr $(, $($rest:tt)*)?) => { call!(@ $function [$($done)* $value,] $($($rest)*)?) };
    ($function:ident($($arguments:tt)*)) => { call!(@ $function [] $($arguments)*) };
}
#[allow(unused_imports)]
pub(crate) use call;
