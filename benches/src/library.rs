//! The library as it ships: by its functions for C, over slices.

// SAFETY of all below: each pointer is that of a slice, with its length.

use crate::Kind;
use crate::functions::*;
use crate::sets::Flat;
use std::marker::PhantomData;
use std::ops::Bound;

const DONE: u32 = 0;
const BUFFER_TOO_SMALL: u32 = 8;

fn number_of(kind: Kind) -> u32 {
    kind.tag().into()
}

#[inline]
pub fn get(kind: Kind, bytes: &[u8], key: &[u8]) -> Option<usize> {
    let mut value = 0;
    call!(zerotrie_get(number_of(kind), [bytes], [key], &mut value)).then_some(value)
}

/// Looks up keys that are one after another, by one call. The value of a missing one is `usize::MAX`.
pub fn get_many(kind: Kind, bytes: &[u8], Flat { keys, ends }: &Flat, values: &mut [usize]) {
    assert_eq!(call!(zerotrie_get_many(number_of(kind), [bytes], [keys], [ends], usize::MAX, [mut values])), DONE);
}

/// The value of a key, by a cursor's step for each of its bytes.
#[inline]
pub fn stepped(kind: Kind, bytes: &[u8], key: &[u8]) -> Option<usize> {
    let (mut cursor, mut edge, mut value) = (call!(zerotrie_cursor_new([bytes])), 0, 0);
    for byte in key {
        call!(zerotrie_cursor_step(number_of(kind), [bytes], &mut cursor, *byte, &mut edge));
    }
    call!(zerotrie_cursor_take_value([bytes], &mut cursor, &mut value)).then_some(value)
}

pub fn is_well_formed(kind: Kind, bytes: &[u8]) -> bool {
    call!(zerotrie_is_well_formed(number_of(kind), [bytes]))
}

/// Pairs as C has them, and a room for what is built of them.
pub struct Build<'a> {
    pairs: Vec<KeyAndValue>,
    room: Vec<u8>,
    /// The pairs point to the keys.
    _keys: PhantomData<&'a [u8]>,
}

impl<'a> Build<'a> {
    pub fn new(pairs: &[(&'a [u8], usize)]) -> Build<'a> {
        let bytes: usize = pairs.iter().map(|(key, _)| key.len()).sum();
        Build { pairs: lent(pairs), room: vec![0; 64 * (bytes + pairs.len()) + 64], _keys: PhantomData }
    }

    /// Builds the trie of pairs in any order, and returns its length.
    pub fn trie(&mut self, kind: Kind) -> usize {
        let (mut len, Build { pairs, room, .. }) = (0, self);
        assert_eq!(call!(zerotrie_build(number_of(kind), [pairs], [mut room], &mut len)), DONE);
        len
    }

    /// The same of pairs that ascend.
    pub fn sorted_trie(&mut self, kind: Kind) -> usize {
        let (mut len, Build { pairs, room, .. }) = (0, self);
        assert_eq!(call!(zerotrie_build_sorted(number_of(kind), [pairs], [mut room], &mut len)), DONE);
        len
    }

    /// Builds the index, and returns its length.
    pub fn index(&mut self) -> usize {
        let (mut len, Build { pairs, room, .. }) = (0, self);
        assert_eq!(call!(zerotrie_index_build(0, [pairs], [mut room], &mut len)), DONE);
        len
    }

    /// What a build of this length wrote.
    pub fn into_bytes(mut self, len: usize) -> Vec<u8> {
        self.room.truncate(len);
        self.room
    }
}

/// The bytes of the trie of pairs that ascend.
pub fn built<'a>(kind: Kind, pairs: impl Iterator<Item = (&'a [u8], usize)>) -> Vec<u8> {
    let mut build = Build::new(&pairs.collect::<Vec<_>>());
    let len = build.sorted_trie(kind);
    build.into_bytes(len)
}

#[inline]
pub fn index_get(bytes: &[u8], key: &[u8]) -> Option<usize> {
    let mut value = 0;
    call!(zerotrie_index_get([bytes], [key], &mut value)).then_some(value)
}

pub fn index_is_valid(bytes: &[u8]) -> bool {
    call!(zerotrie_index_is_valid([bytes]))
}

/// The union of tries of one kind, as one of that kind. `room` has to hold it.
pub fn combined(kind: Kind, tries: &[Vec<u8>], room: &mut [u8]) -> usize {
    let (kind, mut len) = (number_of(kind), 0);
    let tries: Vec<Trie> = tries.iter().map(|bytes| Trie(kind, all(bytes))).collect();
    assert_eq!(call!(zerotrie_combine(0, 0, [tries], kind, [mut room], &mut len)), DONE);
    len
}

/// Seals a trie as a file.
pub fn sealed(kind: Kind, bytes: &[u8]) -> Vec<u8> {
    let (mut file, mut len) = (vec![0; bytes.len() + 64], 0);
    assert_eq!(call!(zerotrie_seal(number_of(kind), [bytes], [mut file], &mut len)), DONE);
    file.truncate(len);
    file
}

/// Opens a sealed file, which reads all of it, and returns the length of its trie.
pub fn opened(file: &[u8]) -> usize {
    let (mut kind, mut at, mut len) = (0, 0, 0);
    assert_eq!(call!(zerotrie_open([file], &mut kind, &mut at, &mut len)), DONE);
    len
}

/// Builds the dense table of values, each with a row and a column, and returns the length of its record.
pub fn dense_build(rows: &Flat, columns: &Flat, values: &[usize], out: &mut [u8]) -> usize {
    let mut len = 0;
    let (Flat { keys: rows, ends: row_ends }, Flat { keys: columns, ends: column_ends }) = (rows, columns);
    assert_eq!(call!(zerotrie_dense_build([rows], [row_ends], [columns], [column_ends], [values], b'/', [mut out], &mut len)), DONE);
    len
}

#[inline]
pub fn dense_get(record: &[u8], row: &str, column: &str) -> Option<usize> {
    let mut value = 0;
    (call!(zerotrie_dense_get([record], [row], [column], &mut value)) == DONE).then_some(value)
}

/// Writes the places by which [`reverse_key`] finds keys, and returns how many.
pub fn reverse_places(kind: Kind, bytes: &[u8], places: &mut [u32]) -> usize {
    let mut count = 0;
    assert_eq!(call!(zerotrie_reverse_places(number_of(kind), [bytes], [mut places], &mut count)), DONE);
    count
}

/// The length of the first key that has a value, by places, or by a scan if there are none.
pub fn reverse_key(kind: Kind, bytes: &[u8], places: &[u32], value: usize, out: &mut [u8]) -> usize {
    let mut len = 0;
    assert_eq!(call!(zerotrie_reverse_key(number_of(kind), [bytes], [places], value, [mut out], &mut len)), DONE);
    len
}

/// A search.
#[derive(Clone, Copy)]
pub enum Question {
    Prefix(&'static str),
    Range(&'static str, &'static str),
    Subsequence(&'static str),
    Glob(&'static str),
    Near(&'static str, u8),
}

/// What a listing found: how many pairs, how many bytes their keys have, and the sum of their values.
#[derive(Default)]
pub struct Found {
    pub pairs: usize,
    pub key_bytes: usize,
    pub values: usize,
}

/// The rooms of a part of a listing, and the last key of the part before.
pub struct Rooms {
    keys: Vec<u8>,
    ends: Vec<usize>,
    values: Vec<usize>,
    distances: Vec<usize>,
    last: Vec<u8>,
}

impl Default for Rooms {
    fn default() -> Self {
        Rooms { keys: vec![0; 1 << 16], ends: vec![0; 4096], values: vec![0; 4096], distances: vec![0; 4096], last: Vec::new() }
    }
}

impl Rooms {
    /// All parts of a listing, one after another. `next` writes one, continues if it is told so, and sets how many pairs it has.
    fn all(&mut self, mut next: impl FnMut(&mut Rooms, bool, &mut usize) -> u32) -> Found {
        let mut found = Found::default();
        loop {
            let mut count = 0;
            let status = next(self, found.pairs > 0, &mut count);
            assert!(status == DONE || status == BUFFER_TOO_SMALL && count > 0);
            let end = if count > 0 { self.ends[count - 1] } else { 0 };
            found.pairs += count;
            found.key_bytes += end;
            found.values += self.values[..count].iter().sum::<usize>();
            if status == DONE {
                return found;
            }
            let start = if count > 1 { self.ends[count - 2] } else { 0 };
            self.last.clear();
            self.last.extend_from_slice(&self.keys[start..end]);
        }
    }

    /// The pairs whose keys begin with a prefix, in the order of the trie.
    pub fn listed(&mut self, kind: Kind, bytes: &[u8], prefix: &[u8]) -> Found {
        self.all(|Rooms { keys, ends, values, last, .. }, goes_on, count| {
            let kind = number_of(kind);
            call!(zerotrie_list_some(kind, [bytes], [prefix], goes_on, [last], [mut keys], [mut ends], [mut values], count, &mut 0))
        })
    }

    /// The pairs from a key to below another, or to the last if that is empty, in the order of bytes.
    pub fn sorted(&mut self, kind: Kind, bytes: &[u8], from: &[u8], to: &[u8]) -> Found {
        let (upper, to) = bound(if to.is_empty() { Bound::Unbounded } else { Bound::Excluded(to) });
        self.all(|Rooms { keys, ends, values, last, .. }, goes_on, count| {
            let (lower, from) = bound(if goes_on { Bound::Excluded(last) } else { Bound::Included(from) });
            let kind = number_of(kind);
            call!(zerotrie_sorted_some(kind, [bytes], lower, [from], upper, [to], [mut keys], [mut ends], [mut values], count, &mut 0))
        })
    }

    /// The pairs that a search finds, in the order of bytes. Those of a prefix a listing has, in the order of the trie.
    pub fn searched(&mut self, kind: Kind, bytes: &[u8], question: Question) -> Found {
        let (by, edits, text, to) = match question {
            Question::Prefix(prefix) => return self.listed(kind, bytes, prefix.as_bytes()),
            Question::Range(from, to) => (0, 0, from, to),
            Question::Glob(pattern) => (1, 0, pattern, ""),
            Question::Subsequence(letters) => (2, 0, letters, ""),
            Question::Near(word, edits) => (3, edits.into(), word, ""),
        };
        let ((from_bound, text), (to_bound, to)) = (bound(Bound::Included(text.as_bytes())), bound(Bound::Excluded(to.as_bytes())));
        let by = &SearchBy { by, edits, from_bound, to_bound, text: all(text), to: all(to), beginnings: false };
        self.all(|Rooms { keys, ends, values, last, .. }, goes_on, count| {
            let kind = number_of(kind);
            call!(zerotrie_search_some(kind, [bytes], [b""], by, goes_on, [last], [mut keys], [mut ends], [mut values], count, &mut 0))
        })
    }

    /// The values of the keys that few edits make of a word, the nearest first. The rooms have to hold all of them.
    pub fn nearest(&mut self, kind: Kind, bytes: &[u8], word: &str, edits: u8) -> &[usize] {
        let (mut count, Rooms { keys, ends, values, distances, .. }) = (0, self);
        let (kind, edits) = (number_of(kind), edits.into());
        let status = call!(
            zerotrie_nearest(kind, [bytes], 3, [word], edits, [mut keys], [mut ends], [mut values], [mut distances], &mut count, &mut 0)
        );
        assert_eq!(status, DONE);
        &values[..count]
    }
}
