// Made from crates/zerotrie_tests/src/tests/routes.rt by rust/make: edit that.
//! The encodings that every way of building returns.

use crate::rstd::prelude::*;
use super::*;
use crate::zerotrie_all::bytes::{ByteSliceWithIndices, plain_encode};

fn string_map(
    alloc: Global,
    items: &[(&str, usize)],
) -> Result<BTreeMap<String, usize>, ZeroTrieBuildError> {
    let mut map = BTreeMap::new(alloc);
    for (key, value) in items {
        map.insert(crate::rstd::string::from_str(alloc, *key)?, *value)?;
    }
    Ok(map)
}

fn bytes_map(
    alloc: Global,
    items: &[(&str, usize)],
) -> Result<BTreeMap<Vec<u8>, usize>, ZeroTrieBuildError> {
    let mut map = BTreeMap::new(alloc);
    for (key, value) in items {
        map.insert(Vec::from_slice(alloc, key.as_bytes())?, *value)?;
    }
    Ok(map)
}

fn as_bytes<'a>(
    alloc: Global,
    items: &'a [(&'a str, usize)],
) -> Result<Vec<(&'a [u8], usize)>, ZeroTrieBuildError> {
    Ok(ByteSliceWithIndices::from_str_slice(items).to_vec_u8(alloc)?)
}

fn reversed<'a>(
    alloc: Global,
    items: &[(&'a str, usize)],
) -> Result<Vec<(&'a str, usize)>, ZeroTrieBuildError> {
    let mut reversed = Vec::from_slice(alloc, items)?;
    reversed.reverse();
    Ok(reversed)
}

/// Items that ascend, and their encoding.
type Row = (&'static [(&'static str, usize)], &'static [u8]);

/// Items in the forms that a build takes.
struct Inputs<'a> {
    texts: BTreeMap<&'a str, usize>,
    strings: BTreeMap<String, usize>,
    bytes: BTreeMap<Vec<u8>, usize>,
    slice: Vec<(&'a [u8], usize)>,
    reversed: Vec<(&'a str, usize)>,
}

fn inputs_of<'a>(
    alloc: Global,
    items: &'a [(&'a str, usize)],
) -> Result<Inputs<'a>, ZeroTrieBuildError> {
    Ok(Inputs {
        texts: text_map(alloc, items)?,
        strings: string_map(alloc, items)?,
        bytes: bytes_map(alloc, items)?,
        slice: as_bytes(alloc, items)?,
        reversed: reversed(alloc, items)?,
    })
}

/// Returns whether the bytes of a trie are this encoding, and the keys are found in it.
fn has_ascii<K: AsciiKind>(trie: &AsciiTrie<K, Vec<u8>>, row: &Row) -> bool {
    let (items, text) = *row;
    for (key, value) in items {
        if trie.get(key.as_bytes()) != Some(*value) {
            return false;
        }
    }
    trie.as_bytes() == text && trie.is_empty() == text.is_empty() && trie.get(b"unknown").is_none()
}

fn is_ascii<K: AsciiKind>(
    built: Result<AsciiTrie<K, Vec<u8>>, ZeroTrieBuildError>,
    row: &Row,
) -> bool {
    match built {
        Ok(trie) => has_ascii(&trie, row),
        Err(_) => false,
    }
}

fn ascii_from_texts<K: AsciiKind, Key: TextKey>(
    alloc: Global,
    map: &BTreeMap<Key, usize>,
    row: &Row,
) -> bool {
    is_ascii::<K>(AsciiTrie::try_from_btree_map_str(alloc, map), row)
}

fn ascii_from_keys<K: AsciiKind, Key: TrieKey + Ord>(
    alloc: Global,
    map: &BTreeMap<Key, usize>,
    row: &Row,
) -> bool {
    is_ascii::<K>(AsciiTrie::try_from_btree_map(alloc, map), row)
}

fn ascii_from_slice<K: AsciiKind>(alloc: Global, items: &[(&[u8], usize)], row: &Row) -> bool {
    is_ascii::<K>(AsciiTrie::try_from_sorted_slice(alloc, items), row)
}

/// Returns whether every way to build over ASCII keys builds this encoding.
fn is_built_as_ascii<K: AsciiKind>(alloc: Global, inputs: &Inputs<'_>, row: &Row) -> bool {
    let routes = [
        ascii_from_texts::<K, &str>(alloc, &inputs.texts, row),
        ascii_from_texts::<K, String>(alloc, &inputs.strings, row),
        ascii_from_keys::<K, &str>(alloc, &inputs.texts, row),
        ascii_from_keys::<K, Vec<u8>>(alloc, &inputs.bytes, row),
        ascii_from_slice::<K>(alloc, &inputs.slice, row),
        is_ascii(ascii_of::<K>(alloc, &inputs.reversed), row),
    ];
    routes == [true; 6]
}

fn is_ascii_text<K: AsciiKind>(alloc: Global, row: &Row) -> bool {
    match inputs_of(alloc, row.0) {
        Ok(inputs) => is_built_as_ascii::<K>(alloc, &inputs, row),
        Err(_) => false,
    }
}

fn has_hashed<K: HashedKind>(trie: &HashedTrie<K, Vec<u8>>, row: &Row) -> bool {
    let (items, text) = *row;
    for (key, value) in items {
        if trie.get(key.as_bytes()) != Some(*value) {
            return false;
        }
    }
    trie.as_bytes() == text && trie.is_empty() == text.is_empty() && trie.get(b"unknown").is_none()
}

fn is_hashed<K: HashedKind>(
    built: Result<HashedTrie<K, Vec<u8>>, ZeroTrieBuildError>,
    row: &Row,
) -> bool {
    match built {
        Ok(trie) => has_hashed(&trie, row),
        Err(_) => false,
    }
}

fn hashed_from_texts<K: HashedKind>(alloc: Global, map: &BTreeMap<&str, usize>, row: &Row) -> bool {
    is_hashed::<K>(HashedTrie::try_from_btree_map_str(alloc, map), row)
}

fn hashed_from_keys<K: HashedKind>(
    alloc: Global,
    map: &BTreeMap<Vec<u8>, usize>,
    row: &Row,
) -> bool {
    is_hashed::<K>(HashedTrie::try_from_btree_map(alloc, map), row)
}

fn hashed_from_slice<K: HashedKind>(alloc: Global, items: &[(&[u8], usize)], row: &Row) -> bool {
    is_hashed::<K>(HashedTrie::try_from_sorted_slice(alloc, items), row)
}

/// Returns whether every way to build over keys of any bytes builds this encoding.
fn is_built_as_hashed<K: HashedKind>(alloc: Global, inputs: &Inputs<'_>, row: &Row) -> bool {
    let routes = [
        hashed_from_texts::<K>(alloc, &inputs.texts, row),
        hashed_from_keys::<K>(alloc, &inputs.bytes, row),
        hashed_from_slice::<K>(alloc, &inputs.slice, row),
        is_hashed(hashed_of::<K>(alloc, &inputs.reversed), row),
    ];
    routes == [true; 4]
}

fn is_hashed_text<K: HashedKind>(alloc: Global, row: &Row) -> bool {
    match inputs_of(alloc, row.0) {
        Ok(inputs) => is_built_as_hashed::<K>(alloc, &inputs, row),
        Err(_) => false,
    }
}

fn has_auto(trie: &ZeroTrie<Vec<u8>>, row: &Row) -> bool {
    let (items, text) = *row;
    for (key, value) in items {
        if trie.get(key.as_bytes()) != Some(*value) {
            return false;
        }
    }
    trie.store.as_slice() == text && trie.byte_len() == text.len() && trie.get(b"unknown").is_none()
}

fn is_auto(
    built: Result<ZeroTrie<Vec<u8>>, ZeroTrieBuildError>,
    flavor: ZeroTrieFlavor,
    row: &Row,
) -> bool {
    match built {
        Ok(trie) => trie.flavor == flavor && has_auto(&trie, row),
        Err(_) => false,
    }
}

/// The trie of the kind that is chosen for the items, built in one of four ways.
fn auto_from_texts(
    alloc: Global,
    map: &BTreeMap<&str, usize>,
) -> Result<ZeroTrie<Vec<u8>>, ZeroTrieBuildError> {
    ZeroTrie::try_from_btree_map_str(alloc, map)
}

fn auto_from_keys(
    alloc: Global,
    map: &BTreeMap<Vec<u8>, usize>,
) -> Result<ZeroTrie<Vec<u8>>, ZeroTrieBuildError> {
    ZeroTrie::try_from_btree_map(alloc, map)
}

fn auto_from_slice(
    alloc: Global,
    items: &[(&[u8], usize)],
) -> Result<ZeroTrie<Vec<u8>>, ZeroTrieBuildError> {
    ZeroTrie::try_from_sorted_slice(alloc, items)
}

/// Returns whether every build that chooses a kind for the items chooses this one, and builds this
/// encoding.
fn is_built_as_auto(alloc: Global, inputs: &Inputs<'_>, flavor: ZeroTrieFlavor, row: &Row) -> bool {
    let routes = [
        is_auto(auto_from_texts(alloc, &inputs.texts), flavor, row),
        is_auto(auto_from_keys(alloc, &inputs.bytes), flavor, row),
        is_auto(auto_from_slice(alloc, &inputs.slice), flavor, row),
        is_auto(any_of(alloc, &inputs.reversed), flavor, row),
    ];
    routes == [true; 4]
}

fn is_auto_text(alloc: Global, flavor: ZeroTrieFlavor, row: &Row) -> bool {
    match inputs_of(alloc, row.0) {
        Ok(inputs) => is_built_as_auto(alloc, &inputs, flavor, row),
        Err(_) => false,
    }
}

/// Returns whether the plain encoder writes this encoding too.
fn is_plain_text(alloc: Global, row: &Row) -> bool {
    match as_bytes(alloc, row.0) {
        Ok(items) => is_bytes(plain_encode(alloc, &items), row.1),
        Err(_) => false,
    }
}

const SIMPLE: &[Row] = &[
    (&[], &[]),
    (
        &[("", 11), ("ad", 22), ("adef", 33), ("adghk", 44)],
        &[
            0x8B, 0x61, 0x64, 0x90, 0x06, 0xC2, 0x65, 0x67, 0x03, 0x66, 0x90, 0x11, 0x68, 0x6B,
            0x90, 0x1C,
        ],
    ),
    (
        &[("bar", 2), ("bazzoo", 3), ("foo", 1)],
        &[
            0xC2, 0x62, 0x66, 0x0A, 0x61, 0xC2, 0x72, 0x7A, 0x01, 0x82, 0x7A, 0x6F, 0x6F, 0x83,
            0x6F, 0x6F, 0x81,
        ],
    ),
    (&[("ad", 22), ("adef", 33)], b"ad\x90\x06ef\x90\x11"),
    (&[("abc", 11), ("xyz", 22)], b"\xC2ax\x03bc\x8Byz\x90\x06"),
    (&LOCALES, LOCALES_TEXT),
    // A value below 16 has one byte, and below 2064 two.
    (&[("", 15)], &[0x8F]),
    (&[("", 16)], &[0x90, 0x00]),
    (&[("", 2063)], &[0x9F, 0x7F]),
    (&[("", 2064)], &[0x90, 0x80, 0x00]),
    (
        &[("", usize::MAX)],
        &[0x91, 0xEF, 0xEF, 0xEF, 0xEF, 0xEF, 0xEF, 0xEF, 0xEF, 0x6F],
    ),
    (
        &[("a", 1), ("abc", 2), ("abd", 3)],
        b"a\x81b\xC2cd\x01\x82\x83",
    ),
    (
        &[
            ("", 0),
            ("axb", 100),
            ("ayc", 2),
            ("azd", 3),
            ("bxe", 4),
            ("bxefg", 500),
            ("bxefh", 6),
            ("bxei", 7),
            ("bxeikl", 8),
        ],
        &[
            0x80, 0xC2, 0x61, 0x62, 0x0D, 0xC3, 0x78, 0x79, 0x7A, 0x03, 0x05, 0x62, 0x90, 0x54,
            0x63, 0x82, 0x64, 0x83, 0x78, 0x65, 0x84, 0xC2, 0x66, 0x69, 0x07, 0xC2, 0x67, 0x68,
            0x02, 0x93, 0x64, 0x86, 0x87, 0x6B, 0x6C, 0x88,
        ],
    ),
];

#[test]
#[cfg_attr(not(target_pointer_width = "64"), ignore = "needs 64 bits")]
fn simple_texts() {
    let rt = HostRuntime;
    let alloc = rt.alloc();
    for row in SIMPLE {
        holds(&rt, is_ascii_text::<Simple>(alloc, row));
        holds(&rt, is_plain_text(alloc, row));
    }
}

/// Keys keep their case, and edges ascend by lower case.
const CASELESS: &[Row] = &[
    (&[], &[]),
    LOWERED,
    (
        &[("Bar", 2), ("Bazzoo", 3), ("foo", 1)],
        &[
            0xC2, 0x42, 0x66, 0x0A, 0x61, 0xC2, 0x72, 0x7A, 0x01, 0x82, 0x7A, 0x6F, 0x6F, 0x83,
            0x6F, 0x6F, 0x81,
        ],
    ),
    (&[("baZ", 2), ("bar", 1)], b"ba\xC2rZ\x01\x81\x82"),
    (
        &MIXED,
        &[
            0x80, 0x61, 0x42, 0x63, 0x81, 0xC4, 0x44, 0x65, 0x46, 0x67, 0x01, 0x02, 0x03, 0x82,
            0x83, 0x84, 0x68, 0x69, 0x85,
        ],
    ),
    (
        &[
            ("@", 5),
            ("B", 3),
            ("[", 4),
            ("_", 1),
            ("`", 6),
            ("a", 2),
            ("{", 7),
        ],
        b"\xC7@[_`aB{\x01\x02\x03\x04\x05\x06\x85\x84\x81\x86\x82\x83\x87",
    ),
];

#[test]
fn texts_without_case() {
    let rt = HostRuntime;
    for row in CASELESS {
        holds(&rt, is_ascii_text::<Ignore>(rt.alloc(), row));
    }
}

/// Spans, and the tables of branches of 16 edges: all parameters are zero if no two edges are equal
/// modulo their number, and searched if two are.
const HASHED: &[Row] = &[
    (&[], &[]),
    (&[("", 3), ("é", 4)], b"\x83\xA2\xC3\xA9\x84"),
    (
        &[("bår", 2), ("båzzøø", 3), ("foo", 1)],
        &[
            0xC2, 0x62, 0x66, 0x0F, 0xA2, 0xC3, 0xA5, 0xC2, 0x72, 0x7A, 0x01, 0x82, 0x7A, 0xA4,
            0xC3, 0xB8, 0xC3, 0xB8, 0x83, 0x6F, 0x6F, 0x81,
        ],
    ),
    (
        &[("å", 1), ("ø", 2)],
        &[0xA1, 0xC3, 0xC2, 0xA5, 0xB8, 0x01, 0x81, 0x82],
    ),
    (&LETTERS, LETTERS_TEXT),
    (
        &[
            ("a", 0),
            ("b", 1),
            ("c", 2),
            ("d", 3),
            ("e", 4),
            ("f", 5),
            ("g", 6),
            ("h", 7),
            ("i", 8),
            ("j", 9),
            ("k", 10),
            ("l", 11),
            ("m", 12),
            ("n", 13),
            ("o", 14),
            ("q", 15),
        ],
        b"\xD0\x01\x01\0\0\0\0\0\0\0\0\0\0\0\0\0\0\0aqbcdefghijklmno\
        \x01\x02\x03\x04\x05\x06\x07\x08\x09\x0A\x0B\x0C\x0D\x0E\x0F\
        \x80\x8F\x81\x82\x83\x84\x85\x86\x87\x88\x89\x8A\x8B\x8C\x8D\x8E",
    ),
];

#[test]
fn hashed_texts_of_both_kinds() {
    let rt = HostRuntime;
    let alloc = rt.alloc();
    for row in HASHED {
        holds(&rt, is_hashed_text::<Hash>(alloc, row));
        holds(&rt, is_hashed_text::<Ext>(alloc, row));
    }
}

/// Returns whether a key of high bytes has this encoding with value 1.
fn is_span(alloc: Global, key: &[u8], text: &[u8]) -> bool {
    match ZeroTriePerfectHash::try_from_iter(alloc, [(key, 1)]) {
        Ok(trie) => trie.as_bytes() == text && trie.get(key) == Some(1),
        Err(_) => false,
    }
}

/// A span of 15 bytes has a head of one byte, and of 16 two.
#[test]
fn long_spans() {
    let rt = HostRuntime;
    let alloc = rt.alloc();
    let run = [0xC3u8; 16];
    let text = b"\xAF\xC3\xC3\xC3\xC3\xC3\xC3\xC3\xC3\xC3\xC3\xC3\xC3\xC3\xC3\xC3\x81";
    holds(&rt, is_span(alloc, &run[..15], text));
    let text = b"\xB0\0\xC3\xC3\xC3\xC3\xC3\xC3\xC3\xC3\xC3\xC3\xC3\xC3\xC3\xC3\xC3\xC3\x81";
    holds(&rt, is_span(alloc, &run, text));
}

fn is_built_of_keys(alloc: Global, keys: Vec<(&[u8], usize)>, text: &[u8]) -> bool {
    match ZeroTriePerfectHash::try_from_iter(alloc, keys) {
        Ok(trie) => trie.as_bytes() == text && trie.get(b"\xC8") == Some(0),
        Err(_) => false,
    }
}

/// All 256 edges: their number is 0 in the head, and the offsets have two bytes.
#[test]
fn all_bytes_are_edges() -> Result<(), Fail> {
    let rt = HostRuntime;
    let alloc = rt.alloc();
    let text = text_of_all_bytes();
    let keys = keys_of(alloc, &text[259..515], 1)?;
    holds(&rt, is_built_of_keys(alloc, keys, &text));
    Ok(())
}

fn is_built_of_vectors(alloc: Global, pairs: Vec<(Vec<u8>, usize)>, text: &[u8]) -> bool {
    match ZeroTrieSimpleAscii::try_from_iter(alloc, pairs) {
        Ok(trie) => trie.as_bytes() == text,
        Err(_) => false,
    }
}

fn is_built_as_they_come(alloc: Global, keys: &[u8], text: &[u8]) -> bool {
    match ZeroTrieSimpleAscii::try_from_iter(alloc, keys.chunks(1).map(|key| (key, 3))) {
        Ok(trie) => trie.as_bytes() == text,
        Err(_) => false,
    }
}

/// An iterator may own its keys, and make its pairs as they are asked for.
#[test]
fn pairs_of_other_iterators() -> Result<(), Fail> {
    let rt = HostRuntime;
    let alloc = rt.alloc();
    let mut pairs = Vec::new(alloc);
    pairs.push((Vec::from_slice(alloc, b"b")?, 2))?;
    pairs.push((Vec::from_slice(alloc, b"a")?, 1))?;
    holds(
        &rt,
        is_built_of_vectors(alloc, pairs, b"\xC2ab\x01\x81\x82"),
    );
    holds(
        &rt,
        is_built_as_they_come(alloc, b"ba", b"\xC2ab\x01\x83\x83"),
    );
    Ok(())
}

/// Keys of ASCII alone make a trie without spans and hashes.
const AUTO_SIMPLE: &[Row] = &[
    (&[], &[]),
    (
        &[("abc", 11), ("axyb", 33), ("xyz", 22)],
        b"\xC2ax\x0A\xC2bx\x02c\x8Byb\x90\x11yz\x90\x06",
    ),
    (
        &LETTERS,
        b"\xD0abcdefghijklmnop\
        \x01\x02\x03\x04\x05\x06\x07\x08\x09\x0A\x0B\x0C\x0D\x0E\x0F\
        \x80\x81\x82\x83\x84\x85\x86\x87\x88\x89\x8A\x8B\x8C\x8D\x8E\x8F",
    ),
];

const AUTO_HASHED: Row = (&[("å", 1), ("ø", 2)], b"\xA1\xC3\xC2\xA5\xB8\x01\x81\x82");

#[test]
fn auto_texts() {
    let rt = HostRuntime;
    let alloc = rt.alloc();
    for row in AUTO_SIMPLE {
        holds(&rt, is_auto_text(alloc, ZeroTrieFlavor::SimpleAscii, row));
    }
    holds(
        &rt,
        is_auto_text(alloc, ZeroTrieFlavor::PerfectHash, &AUTO_HASHED),
    );
}

fn has_kind(alloc: Global, keys: Vec<(&[u8], usize)>, flavor: ZeroTrieFlavor, tag: u8) -> bool {
    match ZeroTrie::try_from_iter(alloc, keys) {
        Ok(trie) => {
            let is_kind = trie.flavor == flavor && trie.get(b"k510") == Some(0);
            is_kind && begins_with(trie.to_tagged_bytes(alloc), tag)
        }
        Err(_) => false,
    }
}

/// Returns whether the trie of keys from "k000" on is of this kind, and its tagged bytes begin with
/// this tag.
fn is_kind_of(alloc: Global, keys: &[u8], flavor: ZeroTrieFlavor, tag: u8) -> bool {
    match keys_of(alloc, keys, 4) {
        Ok(keys) => has_kind(alloc, keys, flavor, tag),
        Err(_) => false,
    }
}

fn begins_with<E>(call: Result<Vec<u8>, E>, first: u8) -> bool {
    match call {
        Ok(bytes) => bytes.as_slice().first() == Some(&first),
        Err(_) => false,
    }
}

/// Up to 511 keys are few: they make a trie of the kind whose tag is 0, and one more makes one of
/// tag 3.
#[test]
fn many_keys_are_hashed() {
    let rt = HostRuntime;
    let alloc = rt.alloc();
    let keys = many_keys();
    holds(
        &rt,
        is_kind_of(alloc, &keys[0..2044], ZeroTrieFlavor::SimpleAscii, 0),
    );
    holds(
        &rt,
        is_kind_of(alloc, &keys, ZeroTrieFlavor::PerfectHash, 3),
    );
}

/// Returns whether a key and "b" have an encoding of this length, with this beginning, which the
/// plain encoder writes too.
fn is_wide(alloc: Global, key: &[u8], length: usize, front: &[u8]) -> bool {
    let items = [(key, 0), (b"b".as_slice(), 0)];
    match ZeroTrieSimpleAscii::try_from_sorted_slice(alloc, &items) {
        Ok(trie) => {
            let is_front = trie.byte_len() == length && trie.as_bytes().starts_with(front);
            let is_found = trie.get(key) == Some(0) && trie.get(b"b") == Some(0);
            is_front && is_found && is_bytes(plain_encode(alloc, &items), trie.as_bytes())
        }
        Err(_) => false,
    }
}

/// Targets of 255 bytes together have offsets of one byte, and of 256 bytes two.
#[test]
fn a_wide_branch_has_wide_offsets() {
    let rt = HostRuntime;
    let alloc = rt.alloc();
    let mut long = [b'x'; 255];
    long[0] = b'a';
    let narrow = [0xC2, 0x61, 0x62, 0xFE, 0x78];
    holds(&rt, is_wide(alloc, &long[..254], 259, &narrow));
    let wide = [0xE1, 0x62, 0x61, 0x62, 0x00, 0xFF, 0x78];
    holds(&rt, is_wide(alloc, &long, 262, &wide));
}
