// Made from crates/zerotrie_tests/src/tests/views.rt by rust/make: edit that.
//! Given bytes, over every store.

use crate::rstd::prelude::*;
use super::*;

/// Bytes, a key, and the result of its look-up.
type Row = (&'static [u8], &'static [u8], Option<usize>);

const SIMPLE: &[Row] = &[
    (b"", b"", None),
    (b"abc\x85", b"abc", Some(5)),
    (b"abc\x85", b"ab", None),
    (b"aBc\x85", b"Abc", None),
    (b"aBc\x85", b"aB\xFF", None),
    (b"in\x83to\x84", b"into", Some(4)),
];

const NAMES: &[u8] = b"\xC2Bf\x0Aa\xC2rz\x01\x82zoo\x83oo\x81";

const CASELESS: &[Row] = &[
    (LOWERED_TEXT, b"Accept-CH", Some(1)),
    (LOWERED_TEXT, b"DATE", Some(4)),
    (b"", b"", None),
    (b"aBc\x85", b"abc", Some(5)),
    (b"aBc\x85", b"ABC", Some(5)),
    (b"aBc\x85", b"Abc", Some(5)),
    (b"aBc\x85", b"ab", None),
    (b"aBc\x85", b"aB\xFF", None),
    (MIXED_TEXT, b"ABCF", Some(4)),
    (MIXED_TEXT, b"abcGHI", Some(5)),
    (MIXED_TEXT, b"aB", None),
    (NAMES, b"BAR", Some(2)),
    (NAMES, b"fOO", Some(1)),
];

/// Look-ups that pass over values and spans, and one that ends before a span.
const HASHED: &[Row] = &[
    (b"a\x8Ab\xA3\x81\x91\xA1\x84", b"a", Some(10)),
    (b"a\x8Ab\xA3\x81\x91\xA1\x84", b"ab\x81\x91\xA1", Some(4)),
    (b"a\x8Ab\xA3\x81\x91\xA1\x84", b"ab", None),
    (b"a\x8Ab\xA3\x81\x91\xA1\x84", b"b", None),
];

fn ascii_value<K: AsciiKind>(bytes: &[u8], key: &[u8]) -> Option<usize> {
    AsciiTrie::<K, &[u8]>::from_bytes(bytes).get(key)
}

/// The results of a trie of a hashed kind, and of a `ZeroTrie` of the same kind.
fn hashed_values<K: HashedKind>(bytes: &[u8], key: &[u8]) -> [Option<usize>; 2] {
    let trie: HashedTrie<K, &[u8]> = HashedTrie::from_bytes(bytes);
    [trie.get(key), trie.into_zerotrie().get(key)]
}

#[test]
fn look_ups() {
    let rt = HostRuntime;
    for (bytes, key, value) in SIMPLE {
        same(&rt, ascii_value::<Simple>(bytes, key), *value);
    }
    for (bytes, key, value) in CASELESS {
        same(&rt, ascii_value::<Ignore>(bytes, key), *value);
    }
    for (bytes, key, value) in HASHED {
        same(&rt, hashed_values::<Hash>(bytes, key), [*value; 2]);
        same(&rt, hashed_values::<Ext>(bytes, key), [*value; 2]);
    }
}

/// Returns whether a trie that owns its bytes or borrows them is this one.
fn is_ascii_over_cow<K: AsciiKind>(
    cow: &AsciiTrie<K, CowSlice<'_, u8>>,
    borrowed: AsciiTrie<K, &[u8]>,
) -> bool {
    cow.get(b"aBc") == Some(5) && cow.as_borrowed() == borrowed
}

/// Returns whether the same bytes in memory of their own are one trie of the kind over ASCII.
fn is_ascii_over_vectors<K: AsciiKind>(alloc: Global) -> bool {
    let borrowed: AsciiTrie<K, &[u8]> = AsciiTrie::from_bytes(b"aBc\x85");
    match borrowed.to_owned(alloc) {
        Ok(owned) => is_ascii_over_cow(&owned.convert_store(), borrowed),
        Err(_) => false,
    }
}

fn is_hashed_over_cow<K: HashedKind>(
    cow: &HashedTrie<K, CowSlice<'_, u8>>,
    borrowed: HashedTrie<K, &[u8]>,
) -> bool {
    cow.get(b"aBc") == Some(5) && cow.as_borrowed() == borrowed
}

fn is_hashed_over_vectors<K: HashedKind>(alloc: Global) -> bool {
    let borrowed: HashedTrie<K, &[u8]> = HashedTrie::from_bytes(b"aBc\x85");
    match borrowed.to_owned(alloc) {
        Ok(owned) => is_hashed_over_cow(&owned.convert_store(), borrowed),
        Err(_) => false,
    }
}

/// Returns whether views that do not allocate are one trie, and other bytes another.
fn is_ascii_over_arrays<K: AsciiKind>() -> bool {
    let borrowed: AsciiTrie<K, &[u8]> = AsciiTrie::from_bytes(b"aBc\x85");
    let array: AsciiTrie<K, [u8; 4]> = AsciiTrie::from_store([0x61, 0x42, 0x63, 0x86]);
    let is_copied = borrowed
        .clone_in()
        .is_ok_and(|copy| copy.as_borrowed_slice() == borrowed);
    let is_other = array.as_borrowed() != borrowed;
    is_copied && is_other && array.into_store() == [0x61, 0x42, 0x63, 0x86]
}

/// Returns whether a trie of unknown kind is equal to one of its kind alone.
fn is_hashed_as_zerotrie<K: HashedKind>() -> bool {
    let borrowed: HashedTrie<K, &[u8]> = HashedTrie::from_bytes(b"aBc\x85");
    let any: ZeroTrie<CowSlice<'_, u8>> = borrowed.into_zerotrie().convert_store();
    let simple = ZeroTrie::of_kind::<Simple>(borrowed.into_store());
    any.as_borrowed_slice() == borrowed.into_zerotrie()
        && any.as_borrowed_slice() != simple
        && !any.is_empty()
}

#[test]
fn bytes_are_one_trie_over_every_store() {
    let rt = HostRuntime;
    let alloc = rt.alloc();
    holds(&rt, is_ascii_over_arrays::<Simple>());
    holds(&rt, is_ascii_over_arrays::<Ignore>());
    holds(&rt, is_hashed_as_zerotrie::<Hash>());
    holds(&rt, is_hashed_as_zerotrie::<Ext>());
    holds(&rt, is_ascii_over_vectors::<Simple>(alloc));
    holds(&rt, is_ascii_over_vectors::<Ignore>(alloc));
    holds(&rt, is_hashed_over_vectors::<Hash>(alloc));
    holds(&rt, is_hashed_over_vectors::<Ext>(alloc));
}

#[test]
fn kinds_have_their_tags() {
    let rt = HostRuntime;
    let tags = [
        <ZeroTrieSimpleAscii<&[u8]> as ZeroTrieWithOptions>::TAG,
        <ZeroTriePerfectHash<&[u8]> as ZeroTrieWithOptions>::TAG,
        <ZeroTrieExtendedCapacity<&[u8]> as ZeroTrieWithOptions>::TAG,
        <ZeroAsciiIgnoreCaseTrie<&[u8]> as ZeroTrieWithOptions>::TAG,
    ];
    same(&rt, tags, [0, 3, 7, 8]);
}

/// Returns whether `{:?}` writes this of a value.
fn is_shown<T: Debug>(alloc: Global, value: &T, text: &str) -> bool {
    is_text(Ok::<_, crate::rstd::alloc::AllocError>(format!("{value:?}")), text)
}

#[test]
fn tries_show_their_names() {
    let rt = HostRuntime;
    let alloc = rt.alloc();
    let simple = ZeroTrieSimpleAscii::from_bytes(b"a\x85");
    holds(
        &rt,
        is_shown(alloc, &simple, "ZeroTrieSimpleAscii(2 bytes)"),
    );
    let ignore = ZeroAsciiIgnoreCaseTrie::from_bytes(b"");
    holds(
        &rt,
        is_shown(alloc, &ignore, "ZeroAsciiIgnoreCaseTrie(0 bytes)"),
    );
    let hash = ZeroTriePerfectHash::from_bytes(b"a\x85");
    holds(&rt, is_shown(alloc, &hash, "ZeroTriePerfectHash(2 bytes)"));
    let ext = ZeroTrieExtendedCapacity::from_bytes(b"a\x85");
    holds(
        &rt,
        is_shown(alloc, &ext, "ZeroTrieExtendedCapacity(2 bytes)"),
    );
    let any = ext.into_zerotrie();
    holds(
        &rt,
        is_shown(alloc, &any, "ZeroTrie(ExtendedCapacity, 2 bytes)"),
    );
}
