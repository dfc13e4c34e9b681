// Made from tests/rows/calls.rt.in by rust/make: edit that.
//! Calls that are short for others, and the cursor of a `ZeroTrie`.

use crate::rstd::prelude::*;
use super::*;
use crate::zerotrie_all::bytes::{
    ByteSliceWithIndices, count_pairs, encoded_len, fill_from_end, first_key_of, get_counted,
};
use crate::zerotrie_all::cursor::{ByteProbeResult, ZeroTrieCursor};

/// The keys "ab", "abcd" and "abce", the first with value 1 and the others with value 2.
const FEW: &[u8] = b"ab\x81c\xC2de\x01\x82\x82";

/// A look-up of a text, a test for a key and for what is none, and how many keys there are, and in an empty trie.
fn ascii_answers<K: AsciiKind>() -> (Option<usize>, [bool; 2], [usize; 2]) {
    let trie: AsciiTrie<K, &[u8]> = AsciiTrie::from_bytes(FEW);
    let empty: AsciiTrie<K, &[u8]> = AsciiTrie::empty();
    (
        trie.get_str("abce"),
        [trie.contains_key(b"abcd"), trie.contains_key(b"abc")],
        [trie.count(), empty.count()],
    )
}

/// The same of a trie over keys of any bytes, and of a `ZeroTrie` of its kind.
fn hashed_answers<K: HashedKind>() -> ([Option<usize>; 2], [bool; 2], [usize; 3]) {
    let trie: HashedTrie<K, &[u8]> = HashedTrie::from_bytes(FEW);
    let any = trie.into_zerotrie();
    let empty: HashedTrie<K, &[u8]> = HashedTrie::empty();
    (
        [trie.get_str("abce"), any.get_str("abce")],
        [trie.contains_key(b"abcd"), any.contains_key(b"abc")],
        [trie.count(), any.count(), empty.count()],
    )
}

#[test]
fn texts_keys_and_counts() {
    let rt = HostRuntime;
    let of_ascii = (Some(2), [true, false], [3, 0]);
    same(&rt, ascii_answers::<Simple>(), of_ascii);
    same(&rt, ascii_answers::<Ignore>(), of_ascii);
    let of_hashed = ([Some(2); 2], [true, false], [3, 3, 0]);
    same(&rt, hashed_answers::<Hash>(), of_hashed);
    same(&rt, hashed_answers::<Ext>(), of_hashed);
    holds(
        &rt,
        ZeroTrie::empty() == Default::default() && ZeroTrie::empty().is_empty(),
    );
}

/// Values at the front, after literals and spans, and in branches below branches count.
const COUNTED: &[(&[u8], usize)] = &[
    (b"", 0),
    (b"a", 0),
    (b"\x80a\x85", 2),
    (b"\xC2ab\x04\x80c\x81d\x82\x83", 4),
    (b"\xC2ab\x05\xC2cd\x01\x80\x81\x82", 3),
];

fn pairs_in<K: ZeroTrieWithOptions>(bytes: &[u8]) -> usize {
    count_pairs::<K>(bytes)
}

#[test]
fn values_at_any_place_count() {
    let rt = HostRuntime;
    for (bytes, pairs) in COUNTED {
        same(&rt, pairs_in::<Simple>(bytes), *pairs);
    }
    same(&rt, pairs_in::<Hash>(b"a\x8Ab\xA3\x81\x91\xA1\x84"), 2);
}

/// Whether the first key of a value is this one, or there is none.
fn is_first(found: Result<Option<Vec<u8>>, ListError>, key: Option<&[u8]>) -> bool {
    match found {
        Ok(Some(first)) => key == Some(first.as_slice()),
        Ok(None) => key.is_none(),
        Err(_) => false,
    }
}

/// Of two keys with one value the first that the listing gives is answered.
#[test]
fn first_keys_of_values() {
    let rt = HostRuntime;
    let alloc = rt.alloc();
    holds(
        &rt,
        is_first(first_key_of::<Hash>(alloc, FEW, 2), Some(b"abcd")),
    );
    let simple = ZeroTrieSimpleAscii::from_bytes(FEW);
    holds(&rt, is_first(simple.first_key_of(alloc, 1), Some(b"ab")));
    let hashed = ZeroTriePerfectHash::from_bytes(FEW);
    holds(&rt, is_first(hashed.first_key_of(alloc, 3), None));
    let any = ZeroTrie::of_kind::<Ext>(FEW);
    holds(&rt, is_first(any.first_key_of(alloc, 3), None));
}

/// Whether the first key of a trie and its first value are these.
fn ascii_begins(alloc: Global, bytes: &[u8], key: &str, value: usize) -> bool {
    let trie = ZeroTrieSimpleAscii::from_bytes(bytes);
    let is_key = match first(trie.keys(alloc)) {
        Some(Ok(first)) => first.as_str() == key,
        _ => false,
    };
    is_key && matches!(first(trie.values(alloc)), Some(Ok(first)) if first == value)
}

fn hashed_begins(alloc: Global, bytes: &[u8], key: &[u8], value: usize) -> bool {
    let trie = ZeroTriePerfectHash::from_bytes(bytes);
    let is_key = match first(trie.keys(alloc)) {
        Some(Ok(first)) => first.as_slice() == key,
        _ => false,
    };
    is_key && matches!(first(trie.values(alloc)), Some(Ok(first)) if first == value)
}

#[test]
fn keys_and_values() {
    let rt = HostRuntime;
    let alloc = rt.alloc();
    holds(&rt, ascii_begins(alloc, b"ab\x81", "ab", 1));
    holds(&rt, hashed_begins(alloc, b"ab\x81", b"ab", 1));
}

/// Whether a cursor steps over bytes that are there.
fn goes_down(cursor: &mut ZeroTrieCursor<'_>, bytes: &[u8]) -> bool {
    for byte in bytes {
        if cursor.step(*byte) != Some(*byte) {
            return false;
        }
    }
    true
}

/// Whether a cursor probes the second of the edges "a" and "b" and takes its value, and its copy steps to no edge.
fn finds_edges(cursor: ZeroTrieCursor<'_>) -> bool {
    let mut cursor = cursor;
    match cursor.clone_in() {
        Ok(mut other) => {
            let edge = ByteProbeResult {
                byte: b'b',
                total_siblings: 2,
            };
            let is_probed = cursor.probe(1) == Some(edge);
            let is_taken = cursor.take_value() == Some(2);
            let is_lost = other.step(b'c').is_none();
            is_probed && is_taken && is_lost && cursor.is_empty() && other.is_empty()
        }
        Err(_) => false,
    }
}

/// A cursor steps, probes and takes as that of its kind, and goes inside a span.
fn any_cursor<K: HasFlavor>(bytes: &[u8], steps: &[u8]) -> bool {
    let mut cursor = ZeroTrie::of_kind::<K>(bytes).into_cursor();
    goes_down(&mut cursor, steps) && finds_edges(cursor)
}

#[test]
fn cursors_of_any_kind() {
    let rt = HostRuntime;
    holds(&rt, any_cursor::<Simple>(b"a\xC2ab\x01\x81\x82", b"a"));
    holds(
        &rt,
        any_cursor::<Hash>(b"\xA2\xC3\xA5\xC2ab\x01\x81\x82", b"\xC3\xA5"),
    );
    holds(
        &rt,
        any_cursor::<Ext>(b"\xA2\xC3\xA5\xC2ab\x01\x81\x82", b"\xC3\xA5"),
    );
}

/// The value of a key after a byte, if the trie of that is there.
fn value_after(bytes: &[u8], steps: &[u8], key: &str) -> Option<Option<usize>> {
    let trie = ZeroTrie::of_kind::<Hash>(bytes);
    let mut cursor = trie.cursor();
    goes_down(&mut cursor, steps);
    Some(cursor.into_suffix_trie()?.get_str(key))
}

/// There is no trie of what comes after a place inside a span.
#[test]
fn suffix_tries_of_any_kind() {
    let rt = HostRuntime;
    let bytes = b"a\xA2\xC3\xA5\x85".as_slice();
    same(&rt, value_after(bytes, b"a", "å"), Some(Some(5)));
    same(&rt, value_after(bytes, b"a\xC3", ""), None);
}

/// Whether a trie that owns these bytes is equal to the one that borrows them.
fn is_owned(alloc: Global, bytes: &[u8]) -> bool {
    let trie = ZeroTrie::of_kind::<Hash>(bytes);
    match trie.to_owned(alloc) {
        Ok(owned) => owned.as_borrowed() == trie && owned.as_bytes() == bytes,
        Err(_) => false,
    }
}

fn any_begins(alloc: Global, bytes: &[u8], key: &[u8], value: usize) -> bool {
    let trie = ZeroTrie::of_kind::<Hash>(bytes);
    is_pair(first(trie.iter(alloc)), key, value)
}

fn any_walk_ends(alloc: Global, bytes: &[u8], ops: &[CursorOp], answer: &CursorAnswer) -> bool {
    let trie = ZeroTrie::of_kind::<Hash>(bytes);
    match trie.walk(alloc, ops) {
        Ok(answers) => answers.as_slice().last() == Some(answer),
        Err(_) => false,
    }
}

#[test]
fn a_zerotrie_is_owned_and_listed() {
    let rt = HostRuntime;
    let alloc = rt.alloc();
    holds(&rt, is_owned(alloc, b"a\x85"));
    holds(&rt, any_begins(alloc, b"a\x85", b"a", 5));
    let ops = [CursorOp::Step(b'a'), CursorOp::Take];
    let taken = CursorAnswer::Taken(Some(5));
    holds(&rt, any_walk_ends(alloc, b"a\x85", &ops, &taken));
}

/// How many bytes are written to the end of a buffer, and what a look-up there answers, with the nodes that it reads.
fn found_in_buffer(
    items: ByteSliceWithIndices<'_>,
    key: &[u8],
) -> Option<(usize, (Option<usize>, usize))> {
    let mut buffer = [0; 8];
    let start = fill_from_end::<0>(&mut buffer, items).ok()?;
    let found = get_counted::<Simple>(&buffer[start..], key);
    Some((buffer.len() - start, found))
}

/// The length that is told beforehand is that of the array and of the buffer.
#[test]
fn lengths_beforehand() {
    let rt = HostRuntime;
    let alloc = rt.alloc();
    let items = [("ad", 22), ("adef", 33)];
    let len = ZeroTrieSimpleAscii::encoded_len_str(alloc, &items);
    same(&rt, len.ok(), Some(8));
    let bytes: [(&[u8], usize); 2] = [(b"ad", 22), (b"adef", 33)];
    let len = ZeroTriePerfectHash::encoded_len(alloc, &bytes);
    same(&rt, len.ok(), Some(8));
    let lent = ByteSliceWithIndices::from_str_slice(&items);
    let len = encoded_len(alloc, lent, ZeroTrieBuilderOptions::of::<Simple>());
    same(&rt, len.ok(), Some(8));
    same(
        &rt,
        found_in_buffer(lent, b"adef"),
        Some((8, (Some(33), 6))),
    );
}

/// Targets of 255 bytes together have offsets of one byte, and of 256 bytes two.
#[test]
fn lengths_of_wider_offsets() {
    let rt = HostRuntime;
    let mut key = [b'x'; 255];
    key[0] = b'a';
    for (len, bytes) in [(254, 259), (255, 262)] {
        let items: [(&[u8], usize); 2] = [(&key[..len], 0), (b"b", 0)];
        let items = ByteSliceWithIndices::from_byte_slice(&items);
        let told = encoded_len(rt.alloc(), items, ZeroTrieBuilderOptions::of::<Simple>());
        same(&rt, told.ok(), Some(bytes));
    }
}

const CASELESS: &[u8] = b"aB\x81c\x82";

/// Whether this pair is the first that a trie has after the prefix.
fn lists_after(alloc: Global, bytes: &[u8], prefix: &[u8], key: &str, value: usize) -> bool {
    let trie = ZeroAsciiIgnoreCaseTrie::from_bytes(bytes);
    match trie.iter_prefix(alloc, prefix) {
        Ok(pairs) => is_text_pair(first(pairs), key, value),
        Err(_) => false,
    }
}

#[test]
fn prefixes_without_case() {
    let rt = HostRuntime;
    let trie = ZeroAsciiIgnoreCaseTrie::from_bytes(CASELESS);
    same(&rt, trie.longest_prefix(b"ABCD"), Some((3, 2)));
    same(&rt, trie.longest_prefix_at(b"ABCD", b"-"), None);
    same(&rt, trie.longest_prefix_at(b"AB-C", b"-"), Some((2, 1)));
    same(&rt, first(trie.common_prefixes(b"abcd")), Some((2, 1)));
    holds(&rt, lists_after(rt.alloc(), CASELESS, b"ABC", "aBc", 2));
}

/// Whether this key is the first that a trie has after the prefix.
fn streams(alloc: Global, bytes: &[u8], prefix: &[u8], key: &[u8]) -> bool {
    let trie = ZeroTriePerfectHash::from_bytes(bytes);
    match trie.stream_prefix(alloc, prefix) {
        Ok(mut pairs) => matches!(pairs.advance(), Ok(true)) && pairs.key() == key,
        Err(_) => false,
    }
}

/// Whether no key of a trie begins with the prefix.
fn any_has_none(alloc: Global, bytes: &[u8], prefix: &[u8]) -> bool {
    let any = ZeroTrie::of_kind::<Hash>(bytes);
    match any.iter_prefix(alloc, prefix) {
        Ok(pairs) => first(pairs).is_none(),
        Err(_) => false,
    }
}

/// A prefix may end inside a span.
#[test]
fn prefixes_of_any_bytes() {
    let rt = HostRuntime;
    let alloc = rt.alloc();
    let bytes = b"a\xA2\xC3\xA9\x83".as_slice();
    let hashed = ZeroTriePerfectHash::from_bytes(bytes);
    same(&rt, hashed.longest_prefix(b"a\xC3\xA9"), Some((3, 3)));
    same(&rt, hashed.longest_prefix_at(b"a\xC3\xA9", b""), Some((3, 3)));
    let any = hashed.into_zerotrie();
    same(&rt, any.longest_prefix(b"a\xC3\xA9b"), Some((3, 3)));
    same(&rt, any.longest_prefix_at(b"a\xC3\xA9b", b"/."), None);
    same(&rt, any.longest_prefix_at(b"a\xC3\xA9.b", b"/."), Some((3, 3)));
    holds(&rt, streams(alloc, bytes, b"a\xC3", b"a\xC3\xA9"));
    holds(&rt, any_has_none(alloc, bytes, b"a\xA9"));
}
