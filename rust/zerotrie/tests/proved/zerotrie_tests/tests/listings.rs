// Made from crates/zerotrie_tests/src/tests/listings.rt by rust/make: edit that.
//! Listings, and the maps that they make.

use crate::rstd::prelude::*;
use super::*;

/// Returns whether a listing begins with these pairs.
fn begins(items: &mut ZeroTrieIterator<'_>, pairs: &[(&[u8], usize)]) -> bool {
    for (key, value) in pairs {
        if !is_pair(items.next(), *key, *value) {
            return false;
        }
    }
    true
}

/// Returns whether a listing returns these pairs, then ends for good.
fn gives_texts(items: ZeroTrieStringIterator<'_>, pairs: &[(&str, usize)]) -> bool {
    let mut items = items;
    for (key, value) in pairs {
        if !is_text_pair(items.next(), *key, *value) {
            return false;
        }
    }
    items.next().is_none() && items.next().is_none()
}

/// Returns whether a map has these pairs, and nothing else.
fn has_texts(map: &BTreeMap<String, usize>, pairs: &[(&str, usize)]) -> bool {
    for (key, value) in pairs {
        if map.get(*key) != Some(value) {
            return false;
        }
    }
    map.len() == pairs.len()
}

/// Returns whether the trie of these bytes lists these pairs, and is their map.
fn lists_texts<K: AsciiKind>(alloc: Global, bytes: &[u8], pairs: &[(&str, usize)]) -> bool {
    let trie: AsciiTrie<K, &[u8]> = AsciiTrie::from_bytes(bytes);
    let is_map = match trie.to_btreemap(alloc) {
        Ok(map) => has_texts(&map, pairs),
        Err(_) => false,
    };
    is_map && gives_texts(trie.iter(alloc), pairs)
}

const NESTED: &[(&str, usize)] = &[("abc", 0), ("abcdef", 1)];

/// Keys without case, as they are listed.
const MIXED_LISTED: &[(&str, usize)] = &[
    ("", 0),
    ("aBc", 1),
    ("aBcD", 2),
    ("aBce", 3),
    ("aBcF", 4),
    ("aBcghi", 5),
];

#[test]
fn texts_in_order() {
    let rt = HostRuntime;
    let alloc = rt.alloc();
    holds(&rt, lists_texts::<Simple>(alloc, b"", &[]));
    holds(&rt, lists_texts::<Simple>(alloc, b"abc\x80def\x81", NESTED));
    holds(&rt, lists_texts::<Simple>(alloc, LOCALES_TEXT, &LOCALES));
    holds(&rt, lists_texts::<Ignore>(alloc, MIXED_TEXT, MIXED_LISTED));
}

/// Returns whether a map has the letters with their numbers, and nothing else.
fn has_letters(map: &BTreeMap<Vec<u8>, usize>) -> bool {
    for (key, value) in &LETTERS {
        if map.get(key.as_bytes()) != Some(value) {
            return false;
        }
    }
    map.len() == 16
}

fn are_letters(map: Result<BTreeMap<Vec<u8>, usize>, ListError>) -> bool {
    match map {
        Ok(map) => has_letters(&map),
        Err(_) => false,
    }
}

/// The first letters in the order of their table.
const FIRST_LETTERS: &[(&[u8], usize)] = &[(b"p", 15), (b"a", 0), (b"b", 1)];

/// A hashed table has its parameters before its edges, and its edges in an order of its own.
fn lists_letters<K: HashedKind>(alloc: Global) -> bool {
    let trie: HashedTrie<K, &[u8]> = HashedTrie::from_bytes(LETTERS_TEXT);
    are_letters(trie.to_btreemap(alloc))
        && are_letters(trie.into_zerotrie().to_btreemap(alloc))
        && begins(&mut trie.iter(alloc), FIRST_LETTERS)
}

#[test]
fn letters_in_the_order_of_the_table() {
    let rt = HostRuntime;
    let alloc = rt.alloc();
    holds(&rt, lists_letters::<Hash>(alloc));
    holds(&rt, lists_letters::<Ext>(alloc));
}

const SPANS: &[(&[u8], usize)] = &[(b"a", 10), (b"ab\x81\x91\xA1", 4)];

/// Returns whether these bytes list a value before a span and one after it, and then end.
fn lists_spans(alloc: Global, bytes: &[u8]) -> bool {
    let trie = ZeroTriePerfectHash::from_bytes(bytes);
    let mut items = trie.iter(alloc);
    begins(&mut items, SPANS) && items.next().is_none()
}

#[test]
fn spans_and_values_on_the_way() {
    let rt = HostRuntime;
    holds(&rt, lists_spans(rt.alloc(), b"a\x8Ab\xA3\x81\x91\xA1\x84"));
}

/// The number of keys in the map of these items, as a `ZeroTrie` lists it.
fn keys_listed(alloc: Global, items: &[(&str, usize)]) -> Option<usize> {
    let trie = any_of(alloc, items).ok()?;
    match trie.to_btreemap(alloc) {
        Ok(map) => Some(map.len()),
        Err(_) => None,
    }
}

const WORDS: &[(&str, usize)] = &[("foo", 1), ("bår", 2), ("båzzøø", 3)];

#[test]
fn words_beyond_ascii() {
    let rt = HostRuntime;
    same(&rt, keys_listed(rt.alloc(), WORDS), Some(3));
}

/// The number of pairs in a listing.
fn count<K: ZeroTrieWithOptions>(alloc: Global, bytes: &[u8]) -> Option<usize> {
    let mut pairs = 0_usize;
    for item in ZeroTrieIterator::new::<K>(alloc, bytes) {
        let _pair = item.ok()?;
        pairs = pairs.saturating_add(1);
    }
    Some(pairs)
}

/// Nothing is listed after offsets that fall, or after a length of more bytes than there are.
const COUNTED: &[(&[u8], usize)] = &[
    (b"a", 0),
    (b"\x80\x80", 2),
    (b"\xC1a\x81", 0),
    (b"\xC2ba\x01\x80\x80", 2),
    (b"\xE1bab\x00\x01\x80\x81", 2),
    (b"\x90", 0),
    (b"\xEFbab\x00\x01\x80\x81", 0),
    (b"\xE1\xDF\xDF\xDF\xDF\xDF\xDF\xDF\xDF\x5F", 0),
    (b"\xC3abc\x02\x00\x80\x81", 2),
    (b"\xC3abc\x08\x00\xC3abc\x02\x00\x80\x81", 2),
    (b"\xC3abc\x01\x09\x80\x81\x82", 1),
];

const SPAN: &[u8] = b"\xA1\xC3\xA1\xA5\x81";

/// Returns whether a listing has this many pairs.
fn is_counted<K: ZeroTrieWithOptions>(alloc: Global, row: &(&[u8], usize)) -> bool {
    count::<K>(alloc, row.0) == Some(row.1)
}

#[test]
fn listings_of_no_trie_end() {
    let rt = HostRuntime;
    let alloc = rt.alloc();
    for row in COUNTED {
        holds(&rt, is_counted::<Simple>(alloc, row));
        holds(&rt, is_counted::<Ignore>(alloc, row));
        holds(&rt, is_counted::<Hash>(alloc, row));
    }
    holds(&rt, is_counted::<Hash>(alloc, &(SPAN, 1)));
    holds(&rt, is_counted::<Simple>(alloc, &(SPAN, 0)));
}

/// Returns whether a listing returns a pair, then the error of a key that is not UTF-8, and then
/// ends.
fn stops_at_no_text(items: ZeroTrieStringIterator<'_>) -> bool {
    let mut items = items;
    let is_pair = matches!(items.next(), Some(Ok(_)));
    let is_error = matches!(items.next(), Some(Err(ListError::NotText)));
    is_pair && is_error && items.next().is_none()
}

#[test]
fn a_key_that_is_no_text() {
    let rt = HostRuntime;
    let alloc = rt.alloc();
    let trie = ZeroTrieSimpleAscii::from_bytes(b"\x80\xC2\xC3\xC4\x01\x81\x82");
    holds(&rt, stops_at_no_text(trie.iter(alloc)));
    holds(
        &rt,
        is_refused(trie.to_btreemap(alloc), &ListError::NotText),
    );
}
