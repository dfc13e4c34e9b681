// Made from crates/zerotrie_tests/src/tests.rt by rust/make: edit that.
#![cfg_attr(rustfmt, rustfmt::skip)]
#![deny(unused_must_use)]
use crate::rstd::prelude::*;

mod calls;
mod items;
mod json;
mod malformed;
mod overlaps;
mod ported;
mod records;
mod reverse;
mod sealed;
mod searches;
mod stores;
mod uses;

use crate::rstd::alloc::{AllocError, Global};
use crate::rstd::borrow::CowSlice;
use crate::rstd::collections::BTreeMap;
use crate::rstd::fmt::{Debug, Display};
use crate::rstd::process::Abort;
use crate::rstd::test::Fail;
use crate::zerotrie_all::*;

/// Ends the test if the two differ, and prints both. It is `assert_eq!` in a function, since the
/// proof of what that prints is long and is done at each place.
fn same<T: Debug + PartialEq, H: Abort>(rt: &H, left: T, right: T) {
    assert_eq!(left, right);
}

/// Ends the test unless this is true. It is `assert!` in a function, for the same reason.
fn holds<H: Abort>(rt: &H, it: bool) {
    assert!(it);
}

/// The trie of items in any order.
fn ascii_of<K: AsciiKind>(
    alloc: Global,
    items: &[(&str, usize)],
) -> Result<AsciiTrie<K, Vec<u8>>, ZeroTrieBuildError> {
    AsciiTrie::try_from_iter(alloc, items.iter().copied())
}

fn hashed_of<K: HashedKind>(
    alloc: Global,
    items: &[(&str, usize)],
) -> Result<HashedTrie<K, Vec<u8>>, ZeroTrieBuildError> {
    HashedTrie::try_from_iter(alloc, items.iter().copied())
}

fn any_of(alloc: Global, items: &[(&str, usize)]) -> Result<ZeroTrie<Vec<u8>>, ZeroTrieBuildError> {
    ZeroTrie::try_from_iter(alloc, items.iter().copied())
}

/// Returns whether a call returned this error.
fn is_refused<T, E: PartialEq>(call: Result<T, E>, error: &E) -> bool {
    match call {
        Ok(_) => false,
        Err(why) => why == *error,
    }
}

/// Returns whether a call returned these bytes.
fn is_bytes<E>(call: Result<Vec<u8>, E>, bytes: &[u8]) -> bool {
    match call {
        Ok(given) => given.as_slice() == bytes,
        Err(_) => false,
    }
}

/// Returns whether a call returned this string.
fn is_text<E>(call: Result<String, E>, text: &str) -> bool {
    match call {
        Ok(given) => given.as_str() == text,
        Err(_) => false,
    }
}

/// Returns whether `{}` writes this of a value.
fn is_written<T: Display>(alloc: Global, value: &T, text: &str) -> bool {
    is_text(Ok::<_, crate::rstd::alloc::AllocError>(format!("{value}")), text)
}

/// The first item of a listing.
fn first<I: Iterator>(items: I) -> Option<I::Item> {
    let mut items = items;
    items.next()
}

/// Returns whether an item of a listing is this pair.
fn is_pair(item: Option<Result<(Vec<u8>, usize), ListError>>, key: &[u8], value: usize) -> bool {
    match item {
        Some(Ok((bytes, number))) => bytes.as_slice() == key && number == value,
        _ => false,
    }
}

/// Returns whether an item of a listing of strings is this pair.
fn is_text_pair(item: Option<Result<(String, usize), ListError>>, key: &str, value: usize) -> bool {
    match item {
        Some(Ok((text, number))) => text.as_str() == key && number == value,
        _ => false,
    }
}

/// The map of items.
fn text_map<'a>(
    alloc: Global,
    items: &[(&'a str, usize)],
) -> Result<BTreeMap<&'a str, usize>, ZeroTrieBuildError> {
    let mut map = BTreeMap::new(alloc);
    for (key, value) in items {
        map.insert(*key, *value)?;
    }
    Ok(map)
}

/// A prefix, and its suffixes with their values.
type Entries<'a> = (&'a str, &'a [(&'a str, usize)]);

/// The rows of a table, in any order.
fn rows_of<'a>(
    alloc: Global,
    table: &[Entries<'a>],
) -> Result<BTreeMap<&'a str, BTreeMap<&'a str, usize>>, ZeroTrieBuildError> {
    let mut rows = BTreeMap::new(alloc);
    for (prefix, row) in table {
        rows.insert(*prefix, text_map(alloc, *row)?)?;
    }
    Ok(rows)
}

/// The bytes in keys of this length, each with value 0.
fn keys_of(
    alloc: Global,
    bytes: &[u8],
    len: usize,
) -> Result<Vec<(&[u8], usize)>, ZeroTrieBuildError> {
    let mut items: Vec<(&[u8], usize)> = Vec::new(alloc);
    for key in bytes.chunks(len) {
        items.push((key, 0))?;
    }
    Ok(items)
}

/// The keys "a" to "p", which in a hashed kind are the edges of the smallest hashed branch.
const LETTERS: [(&str, usize); 16] = [
    ("a", 0),
    ("b", 1),
    ("c", 2),
    ("d", 3),
    ("e", 4),
    ("f", 5),
    ("g", 6),
    ("h", 7),
    ("i", 8),
    ("j", 9),
    ("k", 10),
    ("l", 11),
    ("m", 12),
    ("n", 13),
    ("o", 14),
    ("p", 15),
];

/// Their encoding in a hashed kind.
const LETTERS_TEXT: &[u8; 65] = b"\xD0\0\0\0\0\0\0\0\0\0\0\0\0\0\0\0\0\0pabcdefghijklmno\
    \x01\x02\x03\x04\x05\x06\x07\x08\x09\x0A\x0B\x0C\x0D\x0E\x0F\
    \x8F\x80\x81\x82\x83\x84\x85\x86\x87\x88\x89\x8A\x8B\x8C\x8D\x8E";

/// The encoding of all keys of one byte, each with value 0, in a hashed kind: their number is 0 in
/// the head, and the offsets have two bytes.
fn text_of_all_bytes() -> [u8; 1281] {
    let mut text = [0; 1281];
    text[0] = 0xE1;
    text[1] = 0x60;
    for byte in 0..256 {
        text[259 + byte] = byte as u8;
        text[769 + byte] = byte as u8;
        text[1025 + byte] = 0x80;
    }
    text
}

/// Keys without case: where two differ, they differ in lower case too.
const MIXED: [(&str, usize); 6] = [
    ("", 0),
    ("aBc", 1),
    ("aBcD", 2),
    ("aBcF", 4),
    ("aBce", 3),
    ("aBcghi", 5),
];

/// Their encoding.
const MIXED_TEXT: &[u8] = b"\x80aBc\x81\xC4DeFg\x01\x02\x03\x82\x83\x84hi\x85";

/// Names that differ in case alone, in lower case, and their encoding.
const LOWERED: (&[(&str, usize)], &[u8]) = (
    &[
        ("accept-ch", 1),
        ("accept-charset", 2),
        ("date", 4),
        ("dav", 3),
    ],
    LOWERED_TEXT,
);

const LOWERED_TEXT: &[u8] = b"\xC2ad\x0Fccept-ch\x81arset\x82a\xC2tv\x02e\x84\x83";

/// Fourteen locales, which take 71 bytes.
const LOCALES: [(&str, usize); 14] = [
    ("ar/FR", 0),
    ("ar/IR", 1),
    ("ar/SA", 2),
    ("ar/UK", 3),
    ("ar/US", 4),
    ("en/AU", 5),
    ("en/FR", 6),
    ("en/UK", 7),
    ("en/US", 8),
    ("fr/FR", 9),
    ("fr/SA", 10),
    ("fr/UK", 11),
    ("fr/US", 12),
    ("it/IT", 13),
];

/// Their encoding.
const LOCALES_TEXT: &[u8] =
    b"\xC4aefi\x16(:r/\xC4FISU\x02\x04\x06R\x80R\x81A\x82\xC2KS\x01\x83\x84n/\xC3AFU\x02\x04\
    U\x85R\x86\xC2KS\x01\x87\x88r/\xC3FSU\x02\x04R\x89A\x8A\xC2KS\x01\x8B\x8Ct/IT\x8D";

/// The keys "k000" to "k511", one after another.
fn many_keys() -> [u8; 2048] {
    let mut keys = [b'k'; 2048];
    for n in 0..512 {
        keys[4 * n + 1] = b'0' + (n / 100) as u8;
        keys[4 * n + 2] = b'0' + (n / 10 % 10) as u8;
        keys[4 * n + 3] = b'0' + (n % 10) as u8;
    }
    keys
}
