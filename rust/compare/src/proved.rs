//! The proved library, by its functions for C.

use crate::functions::*;
use crate::library::{Entry, Found, Library, Move, Moved, Pair, Search, Status};
use std::ops::Bound;
use zerotrie::sets::{Rule, Selection};

pub struct Proved;

// SAFETY of all below: each pointer is that of a slice, with its length.

/// Texts one after another, and where each ends.
fn joined<T: AsRef<[u8]>>(texts: impl Iterator<Item = T>) -> (Vec<u8>, Vec<usize>) {
    let (mut bytes, mut ends) = (Vec::new(), Vec::new());
    for text in texts {
        bytes.extend_from_slice(text.as_ref());
        ends.push(bytes.len());
    }
    (bytes, ends)
}

/// The keys of pairs one after another, where each ends, and the values.
fn parts(pairs: &[Pair]) -> (Vec<u8>, Vec<usize>, Vec<usize>) {
    let (keys, ends) = joined(pairs.iter().map(|pair| pair.0));
    (keys, ends, pairs.iter().map(|pair| pair.1).collect())
}

/// What a listing has in parts of at most three pairs, or none of malformed bytes. `some` takes rooms, whether it goes on, the last key
/// and a count.
fn in_parts(kind: u8, bytes: &[u8], some: impl Fn(&mut Rooms, bool, &[u8], &mut usize) -> Status) -> Option<Found> {
    if !Proved.is_well_formed(kind, bytes) {
        return None;
    }
    let mut found: Found = Vec::new();
    loop {
        let (mut rooms, mut count) = (Rooms::of(bytes.len()), 0);
        rooms.values.truncate(3);
        let last = found.last().map_or(&b""[..], |(key, _)| key);
        let status = some(&mut rooms, !found.is_empty(), last, &mut count);
        found.extend(rooms.found(count));
        if status == 0 {
            return Some(found);
        }
        assert_eq!((status, count), (8, 3));
    }
}

/// The rooms of a listing.
struct Rooms {
    keys: Vec<u8>,
    ends: Vec<usize>,
    values: Vec<usize>,
}

impl Rooms {
    /// Rooms for all pairs of so many bytes.
    fn of(len: usize) -> Self {
        Rooms {
            keys: vec![0; 16 + len * (len + 1)],
            ends: vec![0; len + 1],
            values: vec![0; len + 1],
        }
    }

    fn found(&self, count: usize) -> Found {
        let start = |n: usize| if n == 0 { 0 } else { self.ends[n - 1] };
        (0..count)
            .map(|n| (self.keys[start(n)..self.ends[n]].to_vec(), self.values[n]))
            .collect()
    }
}

/// The key that a call wrote, if it found one.
fn found_key(status: Status, mut key: Vec<u8>, len: usize) -> Option<Vec<u8>> {
    if status == 15 {
        return None;
    }
    assert_eq!(status, 0);
    key.truncate(len);
    Some(key)
}

/// What a build writes into its room.
fn written(room: usize, build: impl FnOnce(*mut u8, usize, &mut usize) -> u32) -> Result<Vec<u8>, Status> {
    let (mut out, mut len) = (vec![0; room], 0);
    match build(out.as_mut_ptr(), room, &mut len) {
        0 => {
            out.truncate(len);
            Ok(out)
        }
        status => Err(status),
    }
}

fn room_of(pairs: &[Pair]) -> usize {
    // SAFETY: it takes numbers alone.
    call!(zerotrie_build_bound(pairs.len(), pairs.iter().map(|pair| pair.0.len()).sum()))
}

/// The number that C has for a rule.
fn number_of(rule: Rule) -> u32 {
    match rule {
        Rule::First => 0,
        Rule::Last => 1,
        Rule::Sum => 2,
        Rule::Min => 3,
        Rule::Max => 4,
        Rule::Refuse => 5,
        Rule::Equal => 6,
    }
}

impl Library for Proved {
    fn build(&self, kind: u8, pairs: &[Pair]) -> Result<Vec<u8>, Status> {
        let lent = lent(pairs);
        let built = written(room_of(pairs), |out, room, len| call!(zerotrie_build(kind.into(), [lent], out, room, len)));
        let (keys, ends, values) = parts(pairs);
        let of_parts = written(room_of(pairs), |out, room, len| call!(zerotrie_build_many(
            kind.into(), [keys], [ends], [values], out, room, len
        )));
        assert_eq!(built, of_parts);
        built
    }

    fn build_sorted(&self, kind: u8, pairs: &[Pair]) -> Result<Vec<u8>, Status> {
        let lent = lent(pairs);
        written(room_of(pairs), |out, room, len| call!(zerotrie_build_sorted(kind.into(), [lent], out, room, len)))
    }

    fn encoded_len(&self, kind: u8, pairs: &[Pair]) -> Result<usize, Status> {
        let (lent, mut len) = (lent(pairs), 0);
        match call!(zerotrie_encoded_len(kind.into(), [lent], &mut len)) {
            0 => Ok(len),
            status => Err(status),
        }
    }

    fn why_refused(&self, kind: u8, pairs: &[Pair]) -> Option<(Status, usize, usize)> {
        let (lent, mut first, mut second) = (lent(pairs), 0, 0);
        let status = call!(zerotrie_why_refused(kind.into(), [lent], &mut first, &mut second));
        (status != 0).then_some((status, first, second))
    }

    fn get(&self, kind: u8, bytes: &[u8], key: &[u8]) -> Option<usize> {
        let mut value = 0;
        call!(zerotrie_get(kind.into(), [bytes], [key], &mut value))
        .then_some(value)
    }

    fn get_many(&self, kind: u8, bytes: &[u8], keys: &[Vec<u8>], missing: usize) -> Vec<usize> {
        let (joined, ends) = joined(keys.iter());
        let mut values = vec![0; keys.len()];
        let status = call!(zerotrie_get_many(kind.into(), [bytes], [joined], [ends], missing, [mut values]));
        assert_eq!(status, 0);
        values
    }

    fn longest_prefix(&self, kind: u8, bytes: &[u8], text: &[u8]) -> Option<(usize, usize)> {
        let (mut len, mut value) = (0, 0);
        call!(zerotrie_longest_prefix(kind.into(), [bytes], [text], &mut len, &mut value))
        .then_some((len, value))
    }

    fn longest_prefix_at(&self, kind: u8, bytes: &[u8], text: &[u8], delimiters: &[u8]) -> Option<(usize, usize)> {
        let (mut len, mut value) = (0, 0);
        call!(zerotrie_longest_prefix_at(kind.into(), [bytes], [text], [delimiters], &mut len, &mut value))
        .then_some((len, value))
    }

    fn common_prefixes(&self, kind: u8, bytes: &[u8], text: &[u8]) -> Vec<(usize, usize)> {
        let room = text.len() + 1;
        let (mut lens, mut values) = (vec![0; room], vec![0; room]);
        let count = call!(zerotrie_common_prefixes(
            kind.into(), [bytes], [text], lens.as_mut_ptr(), room, values.as_mut_ptr(), room
        ));
        lens.into_iter().zip(values).take(count).collect()
    }

    fn is_well_formed(&self, kind: u8, bytes: &[u8]) -> bool {
        call!(zerotrie_is_well_formed(kind.into(), [bytes]))
    }

    fn first_fault(&self, kind: u8, bytes: &[u8]) -> Option<(u32, usize)> {
        let mut at = 0;
        let fault = call!(zerotrie_first_fault(kind.into(), [bytes], &mut at));
        (fault != 0).then_some((fault, at))
    }

    fn list(&self, kind: u8, bytes: &[u8], prefix: &[u8]) -> Found {
        let (mut rooms, mut key_bytes, mut count) = (Rooms::of(bytes.len()), 0, 0);
        let Rooms { keys, ends, values } = &mut rooms;
        let status = call!(zerotrie_list(
            kind.into(), [bytes], [prefix], [mut keys], [mut ends], [mut values], &mut key_bytes, &mut count
        ));
        assert_eq!(status, 0);
        let found = rooms.found(count);
        let some = |Rooms { keys, ends, values }: &mut Rooms, goes_on: bool, last: &[u8], count: &mut usize| {
            call!(zerotrie_list_some(
                kind.into(), [bytes], [prefix], goes_on, [last], [mut keys], [mut ends], [mut values], count, &mut 0
            ))
        };
        assert!(in_parts(kind, bytes, some).is_none_or(|parts| parts == found));
        found
    }

    fn sorted(&self, kind: u8, bytes: &[u8], from: Bound<&[u8]>, to: Bound<&[u8]>) -> Found {
        let (mut rooms, mut count, mut next_len) = (Rooms::of(bytes.len()), 0, 0);
        let ((from_bound, from), (to_bound, to)) = (bound(from), bound(to));
        let Rooms { keys, ends, values } = &mut rooms;
        call!(zerotrie_sorted_some(
            kind.into(), [bytes], from_bound, [from], to_bound, [to], [mut keys], [mut ends], [mut values], &mut count,
            &mut next_len
        ));
        rooms.found(count)
    }

    fn last_within(&self, kind: u8, bytes: &[u8], from: Bound<&[u8]>, to: Bound<&[u8]>) -> Option<(Vec<u8>, usize)> {
        let ((from_bound, from), (to_bound, to)) = (bound(from), bound(to));
        let (mut key, mut key_len, mut value) = (vec![0; bytes.len()], 0, 0);
        let status = call!(zerotrie_last_within(
            kind.into(), [bytes], from_bound, [from], to_bound, [to], [mut key], &mut key_len, &mut value
        ));
        found_key(status, key, key_len).map(|key| (key, value))
    }

    fn first_key_of(&self, kind: u8, bytes: &[u8], value: usize) -> Option<Vec<u8>> {
        let (mut key, mut key_len) = (vec![0; bytes.len()], 0);
        let status = call!(zerotrie_first_key_of(kind.into(), [bytes], value, [mut key], &mut key_len));
        found_key(status, key, key_len)
    }

    fn combine(&self, selection: Selection, rule: Rule, tries: &[(u8, &[u8])], kind: u8) -> Result<Vec<u8>, Status> {
        let lent: Vec<Trie> = tries
            .iter()
            .map(|(kind, bytes)| Trie((*kind).into(), all(bytes)))
            .collect();
        let room = tries.iter().map(|trie| 64 + 20 * trie.1.len()).sum();
        written(room, |out, room, len| call!(zerotrie_combine(
            selection as u32, number_of(rule), [lent], kind.into(), out, room, len
        )))
    }

    fn search(&self, kind: u8, bytes: &[u8], prefix: &[u8], search: Search, beginnings: bool) -> Result<Found, Status> {
        let mut by = SearchBy {
            by: 0,
            edits: 0,
            from_bound: 0,
            to_bound: 0,
            text: all(b""),
            to: all(b""),
            beginnings,
        };
        match search {
            Search::Range(from, to) => {
                let ((from_bound, from), (to_bound, to)) = (bound(from), bound(to));
                by = SearchBy {
                    from_bound,
                    to_bound,
                    text: all(from),
                    to: all(to),
                    ..by
                };
            }
            Search::Glob(pattern) => {
                by = SearchBy {
                    by: 1,
                    text: all(pattern),
                    ..by
                }
            }
            Search::Subsequence(letters) => {
                by = SearchBy {
                    by: 2,
                    text: all(letters),
                    ..by
                }
            }
            Search::Edits(word, edits) => {
                by = SearchBy {
                    by: 3,
                    edits: edits.into(),
                    text: all(word),
                    ..by
                }
            }
            Search::CharEdits(word, edits) => {
                by = SearchBy {
                    by: 4,
                    edits: edits.into(),
                    text: all(word),
                    ..by
                }
            }
        }
        let some = |Rooms { keys, ends, values }: &mut Rooms, goes_on: bool, last: &[u8], count: &mut usize| {
            call!(zerotrie_search_some(
                kind.into(), [bytes], [prefix], &by, goes_on, [last], [mut keys], [mut ends], [mut values], count, &mut 0
            ))
        };
        let (mut rooms, mut count) = (Rooms::of(bytes.len()), 0);
        let status = some(&mut rooms, false, b"", &mut count);
        if status != 0 {
            return Err(status);
        }
        let found = rooms.found(count);
        assert!(in_parts(kind, bytes, some).is_none_or(|parts| parts == found));
        Ok(found)
    }

    fn walk(&self, kind: u8, bytes: &[u8], prefix: &[u8], moves: &[Move]) -> Vec<Moved> {
        let (pointer, len) = (bytes.as_ptr(), bytes.len());
        let mut cursor = if prefix.is_empty() {
            call!(zerotrie_cursor_new(pointer, len))
        } else {
            call!(zerotrie_with_prefix(kind.into(), pointer, len, [prefix]))
        };
        let moved = |it: &Move| match *it {
            Move::Step(byte) => {
                let mut edge = 0;
                let found = call!(zerotrie_cursor_step(kind.into(), pointer, len, &mut cursor, byte, &mut edge));
                // where case matters the face returns nothing
                Moved::Edge((found && kind != 0).then_some(edge))
            }
            Move::Probe(index) => {
                let (mut edge, mut siblings) = (0, 0);
                let found = call!(zerotrie_cursor_probe(kind.into(), pointer, len, &mut cursor, index, &mut edge, &mut siblings));
                Moved::Sibling(found.then_some((edge, siblings)))
            }
            Move::Take => {
                let mut value = 0;
                Moved::Value(
                    call!(zerotrie_cursor_take_value(pointer, len, &mut cursor, &mut value)).then_some(value),
                )
            }
        };
        moves.iter().map(moved).collect()
    }

    fn auto_kind(&self, pairs: &[Pair]) -> u8 {
        let lent = lent(pairs);
        unsafe { zerotrie_auto_kind(lent.as_ptr(), lent.len()) as u8 }
    }

    fn tagged(&self, kind: u8, bytes: &[u8]) -> Vec<u8> {
        written(bytes.len() + 1, |out, room, len| call!(zerotrie_tagged(kind.into(), [bytes], out, room, len)))
        .unwrap()
    }

    fn tagged_kind(&self, tagged: &[u8]) -> Result<u8, Status> {
        let mut kind = 0;
        match call!(zerotrie_tagged_kind([tagged], &mut kind)) {
            0 => Ok(kind as u8),
            status => Err(status),
        }
    }

    fn seal(&self, kind: u8, bytes: &[u8]) -> Vec<u8> {
        written(bytes.len() + 24, |out, room, len| call!(zerotrie_seal(kind.into(), [bytes], out, room, len)))
        .unwrap()
    }

    fn open(&self, file: &[u8]) -> Result<(u8, Vec<u8>), Status> {
        let (mut kind, mut at, mut len) = (0, 0, 0);
        match call!(zerotrie_open([file], &mut kind, &mut at, &mut len)) {
            0 => Ok((kind as u8, file[at..at + len].to_vec())),
            status => Err(status),
        }
    }

    fn dense_build(&self, entries: &[Entry], delimiter: u8) -> Result<Vec<u8>, Status> {
        let (prefixes, prefix_ends) = joined(entries.iter().map(|entry| entry.0));
        let (suffixes, suffix_ends) = joined(entries.iter().map(|entry| entry.1));
        let values: Vec<usize> = entries.iter().map(|entry| entry.2).collect();
        written(1 << 16, |out, room, len| call!(zerotrie_dense_build(
            [prefixes], [prefix_ends], [suffixes], [suffix_ends], [values], delimiter, out, room, len
        )))
    }

    fn dense_get(&self, record: &[u8], prefix: &[u8], suffix: &[u8]) -> Result<usize, Status> {
        let mut value = 0;
        let status = call!(zerotrie_dense_get([record], [prefix], [suffix], &mut value));
        if status == 0 { Ok(value) } else { Err(status) }
    }

    fn index_build(&self, seed: u64, pairs: &[Pair]) -> Result<Vec<u8>, Status> {
        let lent = lent(pairs);
        let room = 64 + pairs.iter().map(|pair| pair.0.len() + 40).sum::<usize>();
        let built = written(room, |out, room, len| call!(zerotrie_index_build(seed, [lent], out, room, len)));
        let (keys, ends, values) = parts(pairs);
        let of_parts = written(room, |out, room, len| call!(zerotrie_index_build_many(
            seed, [keys], [ends], [values], out, room, len
        )));
        assert_eq!(built, of_parts);
        built
    }

    fn index_get(&self, bytes: &[u8], key: &[u8]) -> Option<usize> {
        let mut value = 0;
        call!(zerotrie_index_get([bytes], [key], &mut value)).then_some(value)
    }

    fn index_get_many(&self, bytes: &[u8], keys: &[Vec<u8>], missing: usize) -> Vec<usize> {
        let (joined, ends) = joined(keys.iter());
        let mut values = vec![0; keys.len()];
        let status = call!(zerotrie_index_get_many([bytes], [joined], [ends], missing, [mut values]));
        assert_eq!(status, 0);
        values
    }

    fn index_is_valid(&self, bytes: &[u8]) -> bool {
        call!(zerotrie_index_is_valid([bytes]))
    }

    fn index_seal(&self, bytes: &[u8]) -> Vec<u8> {
        written(bytes.len() + 36, |out, room, len| call!(zerotrie_seal_index([bytes], out, room, len)))
        .unwrap()
    }

    fn index_open(&self, file: &[u8]) -> Result<Vec<u8>, Status> {
        let (mut at, mut len) = (0, 0);
        match call!(zerotrie_open_index([file], &mut at, &mut len)) {
            0 => Ok(file[at..at + len].to_vec()),
            status => Err(status),
        }
    }
}
