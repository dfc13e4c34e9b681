//! The library as it ships: its functions for C that take memory or much time. What they return is written to `out`, and told by a number:
//! its length or a refusal.
#![allow(dead_code)]

// SAFETY of all below: each pointer is that of a slice, with its length.

use crate::functions::*;
use crate::input::{Flat, OTHER, REFUSED};

pub const DONE: u32 = 0;
const DUPLICATE_KEY: u32 = 6;
pub const BUFFER_TOO_SMALL: u32 = 8;
const OUT_OF_MEMORY: u32 = 11;
/// The numbers of the kinds.
pub const TAGS: [u32; 4] = [0, 8, 3, 7];

fn told(status: u32, len: usize) -> usize {
    match status {
        DONE => len,
        OUT_OF_MEMORY => REFUSED,
        _ => OTHER,
    }
}

/// Writes parts of an answer one after another, and returns their length.
fn put(out: &mut [u8], parts: &[&[u8]]) -> usize {
    let mut len = 0;
    for part in parts {
        out[len..len + part.len()].copy_from_slice(part);
        len += part.len();
    }
    len
}

pub fn build_sorted(kind: u8, pairs: &Flat, out: &mut [u8]) -> usize {
    let mut len = 0;
    told(call!(zerotrie_build_sorted(TAGS[kind as usize], [pairs.lent], [mut out], &mut len)), len)
}

pub fn build(kind: u8, pairs: &Flat, out: &mut [u8]) -> usize {
    let mut len = 0;
    told(call!(zerotrie_build(TAGS[kind as usize], [pairs.lent], [mut out], &mut len)), len)
}

/// The same of keys that are one after another.
pub fn build_many(kind: u8, pairs: &Flat, ends: &[usize], out: &mut [u8]) -> usize {
    let mut len = 0;
    told(call!(zerotrie_build_many(TAGS[kind as usize], [pairs.keys], [ends], [pairs.values], [mut out], &mut len)), len)
}

pub fn encoded_len(kind: u8, pairs: &Flat, out: &mut [u8]) -> usize {
    let mut len = 0;
    let status = call!(zerotrie_encoded_len(TAGS[kind as usize], [pairs.lent], &mut len));
    told(status, put(out, &[&len.to_le_bytes()]))
}

/// 0 if no keys show why a build is refused, and 1 and the numbers of the two that are one.
pub fn why_refused(kind: u8, pairs: &Flat, out: &mut [u8]) -> usize {
    let (mut first, mut second) = (0, 0);
    match call!(zerotrie_why_refused(TAGS[kind as usize], [pairs.lent], &mut first, &mut second)) {
        DUPLICATE_KEY => put(out, &[&[1], &first.to_le_bytes(), &second.to_le_bytes()]),
        status => told(status, put(out, &[&[0]])),
    }
}

/// 0 if there is no fault, and 1 and the place of the first one.
pub fn first_fault(kind: u8, bytes: &[u8], out: &mut [u8]) -> usize {
    let mut at = 0;
    match call!(zerotrie_first_fault(TAGS[kind as usize], [bytes], &mut at)) {
        1..=10 => put(out, &[&[1], &at.to_le_bytes()]),
        status => told(status, put(out, &[&[0]])),
    }
}

pub fn is_well_formed(kind: u8, bytes: &[u8]) -> bool {
    call!(zerotrie_is_well_formed(TAGS[kind as usize], [bytes]))
}

pub fn get(kind: u8, bytes: &[u8], key: &[u8]) -> Option<usize> {
    let mut value = 0;
    call!(zerotrie_get(TAGS[kind as usize], [bytes], [key], &mut value)).then_some(value)
}

/// The values of keys that are one after another.
pub fn get_many(kind: u8, bytes: &[u8], keys: &[u8], ends: &[usize], values: &mut [usize]) {
    assert_eq!(call!(zerotrie_get_many(TAGS[kind as usize], [bytes], [keys], [ends], usize::MAX, [mut values])), DONE);
}

/// The value that a cursor comes to by the bytes of a key.
pub fn stepped(kind: u8, bytes: &[u8], key: &[u8]) -> Option<usize> {
    let (mut cursor, mut edge, mut value) = (call!(zerotrie_cursor_new([bytes])), 0, 0);
    for byte in key {
        call!(zerotrie_cursor_step(TAGS[kind as usize], [bytes], &mut cursor, *byte, &mut edge));
    }
    call!(zerotrie_cursor_take_value([bytes], &mut cursor, &mut value)).then_some(value)
}

/// The rooms of a listing, and how many pairs are in them.
#[derive(Default)]
pub struct Rooms {
    pub keys: Vec<u8>,
    pub ends: Vec<usize>,
    pub values: Vec<usize>,
    pub count: usize,
}

impl Rooms {
    pub fn of(keys: usize, pairs: usize) -> Rooms {
        Rooms { keys: vec![0; keys], ends: vec![0; pairs], values: vec![0; pairs], count: 0 }
    }

    /// How many bytes the keys have.
    pub fn key_bytes(&self) -> usize {
        self.count.checked_sub(1).map_or(0, |last| self.ends[last])
    }

    pub fn key(&self, number: usize) -> &[u8] {
        let start = number.checked_sub(1).map_or(0, |before| self.ends[before]);
        &self.keys[start..self.ends[number]]
    }

    /// Writes each pair as 1, the length of the key, the key and the value, and 2 behind them if memory was refused.
    pub fn told(&self, status: u32, out: &mut [u8]) -> usize {
        let mut len = 0;
        for number in 0..self.count {
            let (key, value) = (self.key(number), self.values[number]);
            len += put(&mut out[len..], &[&[1], &key.len().to_le_bytes(), key, &value.to_le_bytes()]);
        }
        match status {
            DONE => len,
            OUT_OF_MEMORY if len == 0 => REFUSED,
            OUT_OF_MEMORY => len + put(&mut out[len..], &[&[2]]),
            _ => OTHER,
        }
    }

    /// All pairs behind a prefix, by one call, which returns all of them or none.
    pub fn list(&mut self, kind: u8, bytes: &[u8], prefix: &[u8]) -> u32 {
        let Rooms { keys, ends, values, count } = self;
        *count = 0;
        call!(zerotrie_list(TAGS[kind as usize], [bytes], [prefix], [mut keys], [mut ends], [mut values], &mut 0, count))
    }

    /// The first pairs behind a prefix.
    pub fn list_some(&mut self, kind: u8, bytes: &[u8], prefix: &[u8]) -> u32 {
        self.list_more(kind, bytes, prefix, false, &[])
    }

    /// The pairs behind a prefix, and after the last key if it goes on.
    pub fn list_more(&mut self, kind: u8, bytes: &[u8], prefix: &[u8], goes_on: bool, last: &[u8]) -> u32 {
        let Rooms { keys, ends, values, count } = self;
        *count = 0;
        call!(zerotrie_list_some(TAGS[kind as usize], [bytes], [prefix], goes_on, [last], [mut keys], [mut ends], [mut values], count, &mut 0))
    }

    /// The same by a search whose pattern matches all keys.
    pub fn search_some(&mut self, kind: u8, bytes: &[u8], prefix: &[u8]) -> u32 {
        let by = &SearchBy { by: 1, edits: 0, from_bound: 0, to_bound: 0, text: all(b"*"), to: all(b""), beginnings: false };
        let Rooms { keys, ends, values, count } = self;
        *count = 0;
        call!(zerotrie_search_some(TAGS[kind as usize], [bytes], [prefix], by, false, [b""], [mut keys], [mut ends], [mut values], count, &mut 0))
    }

    /// The pairs from a key on, in the order of keys.
    pub fn sorted_some(&mut self, kind: u8, bytes: &[u8], from: &[u8]) -> u32 {
        let Rooms { keys, ends, values, count } = self;
        *count = 0;
        call!(zerotrie_sorted_some(TAGS[kind as usize], [bytes], 1, [from], 0, [b""], [mut keys], [mut ends], [mut values], count, &mut 0))
    }

    /// The pairs whose keys no edit makes of a word.
    pub fn nearest(&mut self, kind: u8, bytes: &[u8], word: &[u8]) -> u32 {
        let Rooms { keys, ends, values, count } = self;
        *count = 0;
        let distances = &mut [usize::MAX; 1];
        call!(zerotrie_nearest(TAGS[kind as usize], [bytes], 3, [word], 0, [mut keys], [mut ends], [mut values], [mut distances], count, &mut 0))
    }
}

/// Writes a pair, as a listing of it.
fn put_pair(status: u32, key: &[u8], value: usize, out: &mut [u8]) -> usize {
    told(status, put(out, &[&[1], &key.len().to_le_bytes(), key, &value.to_le_bytes()]))
}

/// The last pair in the order of keys.
pub fn last_within(kind: u8, bytes: &[u8], room: &mut [u8], out: &mut [u8]) -> usize {
    let (mut len, mut value) = (0, 0);
    let status = call!(zerotrie_last_within(TAGS[kind as usize], [bytes], 0, [b""], 0, [b""], [mut room], &mut len, &mut value));
    put_pair(status, &room[..len], value, out)
}

/// The first key that has a value.
pub fn first_key_of(kind: u8, bytes: &[u8], value: usize, out: &mut [u8]) -> usize {
    let mut len = 0;
    told(call!(zerotrie_first_key_of(TAGS[kind as usize], [bytes], value, [mut out], &mut len)), len)
}

/// The places by which keys of values are found.
pub fn reverse_places(kind: u8, bytes: &[u8], places: &mut [u32], out: &mut [u8]) -> usize {
    let mut count = 0;
    let status = call!(zerotrie_reverse_places(TAGS[kind as usize], [bytes], [mut places], &mut count));
    let mut len = 0;
    for place in &places[..if status == DONE { count } else { 0 }] {
        len += put(&mut out[len..], &[&place.to_le_bytes()]);
    }
    told(status, len)
}

/// The first key that has a value, by places.
pub fn reverse_key(kind: u8, bytes: &[u8], places: &[u32], value: usize, out: &mut [u8]) -> usize {
    let mut len = 0;
    told(call!(zerotrie_reverse_key(TAGS[kind as usize], [bytes], [places], value, [mut out], &mut len)), len)
}

/// The trie of the pairs that either of two tries has.
pub fn united(kind: u8, first: &[u8], second: &[u8], out: &mut [u8]) -> usize {
    let (mut len, tag) = (0, TAGS[kind as usize]);
    let tries = &[Trie(tag, all(first)), Trie(tag, all(second))];
    told(call!(zerotrie_combine(0, 0, [tries], tag, [mut out], &mut len)), len)
}

/// What a trie has and one without pairs lacks: as a listing, 2 behind it if memory was refused after some.
pub fn diff_some(kind: u8, bytes: &[u8], rooms: &mut Rooms, changes: &mut [Change], out: &mut [u8]) -> usize {
    let tag = TAGS[kind as usize];
    let (mut count, first, second) = (0, &Trie(tag, all(bytes)), &Trie(tag, all(b"")));
    let status = call!(zerotrie_diff_some(first, second, 0, [b""], 0, [b""], [mut rooms.keys], [mut changes], &mut count, &mut 0));
    for (number, change) in changes[..count].iter().enumerate() {
        rooms.ends[number] = change.key_end;
        rooms.values[number] = change.before;
    }
    rooms.count = count;
    rooms.told(status, out)
}

/// The index of pairs in any order.
pub fn index_build(pairs: &Flat, out: &mut [u8]) -> usize {
    let mut len = 0;
    told(call!(zerotrie_index_build(0, [pairs.lent], [mut out], &mut len)), len)
}

/// The same of keys that are one after another.
pub fn index_build_many(pairs: &Flat, ends: &[usize], out: &mut [u8]) -> usize {
    let mut len = 0;
    told(call!(zerotrie_index_build_many(0, [pairs.keys], [ends], [pairs.values], [mut out], &mut len)), len)
}

/// The values of keys in an index.
pub fn index_get_many(bytes: &[u8], keys: &[u8], ends: &[usize], values: &mut [usize]) {
    assert_eq!(call!(zerotrie_index_get_many([bytes], [keys], [ends], usize::MAX, [mut values])), DONE);
}

/// Strings one after another, and where each ends.
#[derive(Default)]
pub struct Column {
    pub texts: Vec<u8>,
    pub ends: Vec<usize>,
}

impl Column {
    pub fn push(&mut self, text: &[u8]) {
        self.texts.extend_from_slice(text);
        self.ends.push(self.texts.len());
    }
}

/// The record of the dense table of entries, each with a prefix and a suffix.
pub fn dense_build(prefixes: &Column, suffixes: &Column, values: &[usize], out: &mut [u8]) -> usize {
    let mut len = 0;
    let (Column { texts, ends }, Column { texts: others, ends: other_ends }) = (prefixes, suffixes);
    told(call!(zerotrie_dense_build([texts], [ends], [others], [other_ends], [values], b'/', [mut out], &mut len)), len)
}
