//! The calls that the library for C lacks, by those of lib.rt.in. What they return is written to `out`, and told by a number: its length
//! or a refusal.
#![allow(dead_code)]

// SAFETY of all below: each pointer is that of a slice, with its length.

use crate::functions::call;
use crate::input::Flat;

pub const ROUTES: [&str; 4] = ["slice", "iterator", "map", "map of texts"];
pub const ASKED: [&str; 6] = ["to_json_value", "to_tagged_bytes", "to_owned", "to_btreemap", "iter", "stream"];

#[rustfmt::skip]
mod raw {
    #[link(name = "zerotrie_hostile", kind = "static")]
    unsafe extern "C" {
        pub fn build(kind: u8, route: u8, keys: *const u8, keys_len: usize, bounds: *const usize, bounds_len: usize, values: *const usize, values_len: usize, out: *mut u8, room: usize) -> usize;
        pub fn read_json(kind: u8, text: *const u8, len: usize, out: *mut u8, room: usize) -> usize;
        pub fn ask(kind: u8, what: u8, bytes: *const u8, len: usize, out: *mut u8, room: usize) -> usize;
        pub fn list_prefix(kind: u8, lends: bool, bytes: *const u8, len: usize, prefix: *const u8, prefix_len: usize, out: *mut u8, room: usize) -> usize;
        pub fn walk(kind: u8, bytes: *const u8, len: usize, calls: *const u8, calls_len: usize, out: *mut u8, room: usize) -> usize;
        pub fn cache(keys: *const u8, len: usize, out: *mut u8, room: usize) -> usize;
        pub fn count(kind: u8, what: u8, bytes: *const u8, len: usize) -> usize;
    }
}
use raw::*;

/// Builds in what has the number `kind` in `input::NAMES`.
pub fn built(kind: u8, route: u8, Flat { keys, bounds, values, .. }: &Flat, out: &mut [u8]) -> usize {
    call!(build(kind, route, [keys], [bounds], [values], [mut out]))
}

/// Builds the pairs of a JSON text.
pub fn read(kind: u8, text: &[u8], out: &mut [u8]) -> usize {
    call!(read_json(kind, [text], [mut out]))
}

/// What `ASKED` names, by its number.
pub fn asked(kind: u8, what: u8, bytes: &[u8], out: &mut [u8]) -> usize {
    call!(ask(kind, what, [bytes], [mut out]))
}

/// The pairs whose keys begin with a prefix, lent or with keys of their own.
pub fn listed(kind: u8, lends: bool, bytes: &[u8], prefix: &[u8], out: &mut [u8]) -> usize {
    call!(list_prefix(kind, lends, [bytes], [prefix], [mut out]))
}

/// The answers of a cursor to calls of two bytes each: 0 and a byte for a step, 1 for a take, 2 and a number for a probe.
pub fn walked(kind: u8, bytes: &[u8], calls: &[u8], out: &mut [u8]) -> usize {
    call!(walk(kind, [bytes], [calls], [mut out]))
}

/// Whether a cache is refused the table of these keys, and the table when it is asked again.
pub fn cached(keys: &[u8], out: &mut [u8]) -> usize {
    call!(cache([keys], [mut out]))
}

/// The sum of lengths and values in the listing of a trie.
pub fn sum_of_listing(kind: u8, bytes: &[u8]) -> usize {
    call!(count(kind, 0, [bytes]))
}

/// How many keys the ordered map of a trie has.
pub fn len_of_map(kind: u8, bytes: &[u8]) -> usize {
    call!(count(kind, 1, [bytes]))
}
