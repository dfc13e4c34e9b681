// Made from crates/zerotrie_tests/src/tests/arrays.rt by rust/make: edit that.
//! Tries in arrays.

use crate::rstd::prelude::*;
use super::*;

/// Keys, of which the second and the third differ after the first byte.
const BAZ: [(&str, usize); 3] = [("bar", 2), ("bazzoo", 3), ("foo", 1)];

/// Their encoding.
const BAZ_TEXT: &[u8] = b"\xC2bf\x0Aa\xC2rz\x01\x82zoo\x83oo\x81";

/// Keys that begin with the one before, but for the first and the last.
const LITERALS: [(&[u8], usize); 4] = [(b"", 11), (b"ad", 22), (b"adef", 33), (b"adghk", 44)];

/// Their encoding.
const LITERALS_TEXT: &[u8] = b"\x8Bad\x90\x06\xC2eg\x03f\x90\x11hk\x90\x1C";

/// A trie in an array, or the error.
type Built<const N: usize> = Result<ZeroTrieSimpleAscii<[u8; N]>, ZeroTrieBuildError>;

fn of_bytes<const N: usize>(items: &[(&[u8], usize)]) -> Built<N> {
    ZeroTrieSimpleAscii::from_sorted_u8_tuples(items)
}

fn of_bytes_with_stack<const N: usize, const K: usize>(items: &[(&[u8], usize)]) -> Built<N> {
    ZeroTrieSimpleAscii::from_sorted_u8_tuples_with_stack::<K>(items)
}

fn of_texts<const N: usize>(items: &[(&str, usize)]) -> Built<N> {
    ZeroTrieSimpleAscii::from_sorted_str_tuples(items)
}

fn of_texts_with_stack<const N: usize, const K: usize>(items: &[(&str, usize)]) -> Built<N> {
    ZeroTrieSimpleAscii::from_sorted_str_tuples_with_stack::<K>(items)
}

/// Returns whether the array is filled with this text.
fn is_full<K: AsciiKind, const N: usize>(
    built: Result<AsciiTrie<K, [u8; N]>, ZeroTrieBuildError>,
    text: &[u8],
) -> bool {
    match built {
        Ok(trie) => trie.as_bytes() == text && trie.is_empty() == text.is_empty(),
        Err(_) => false,
    }
}

const ALONE: [(&str, usize); 1] = [("abc", 0)];

const UNSORTED: [(&str, usize); 3] = [("foo", 1), ("bar", 2), ("bazzoo", 3)];

const HIGH: [(&str, usize); 3] = [("bazzoo", 3), ("bár", 2), ("foo", 1)];

#[test]
fn arrays_are_filled() {
    let rt = HostRuntime;
    holds(&rt, is_full::<_, 0>(of_bytes(&[]), b""));
    holds(&rt, is_full(of_bytes_with_stack::<0, 0>(&[]), b""));
    holds(&rt, is_full::<_, 17>(of_texts(&BAZ), BAZ_TEXT));
    holds(&rt, is_full(of_texts_with_stack::<17, 3>(&BAZ), BAZ_TEXT));
    holds(
        &rt,
        is_full(of_texts_with_stack::<4, 0>(&ALONE), b"abc\x80"),
    );
}

#[test]
fn other_arrays_and_keys_are_refused() {
    let rt = HostRuntime;
    holds(
        &rt,
        is_refused(of_bytes::<1>(&[]), &ZeroTrieBuildError::BufferTooLarge(0)),
    );
    holds(
        &rt,
        is_refused(of_texts::<15>(&BAZ), &ZeroTrieBuildError::BufferTooSmall),
    );
    holds(
        &rt,
        is_refused(
            of_texts::<20>(&BAZ),
            &ZeroTrieBuildError::BufferTooLarge(17),
        ),
    );
    holds(
        &rt,
        is_refused(of_texts::<17>(&UNSORTED), &ZeroTrieBuildError::Unsorted),
    );
    holds(
        &rt,
        is_refused(of_texts::<100>(&HIGH), &ZeroTrieBuildError::NonAsciiError),
    );
    let small = of_texts_with_stack::<17, 2>(&BAZ);
    holds(&rt, is_refused(small, &ZeroTrieBuildError::StackExceeded));
}

/// Names that ascend in lower case, but not by their bytes.
const NAMES: [(&str, usize); 4] = [("Accept", 1), ("Accept-CH", 2), ("dnt", 3), ("Via", 4)];

/// Their encoding without case.
const NAMES_TEXT: &[u8] = b"\xC3AdV\x0A\x0Dccept\x81-CH\x82nt\x83ia\x84";

/// A trie without case in an array, or the error.
fn without_case<const N: usize, const STACK: usize>(
    items: &[(&str, usize)],
) -> Result<ZeroAsciiIgnoreCaseTrie<[u8; N]>, ZeroTrieBuildError> {
    ZeroAsciiIgnoreCaseTrie::from_sorted_str_tuples_with_stack::<STACK>(items)
}

#[test]
fn arrays_without_case() -> Result<(), Fail> {
    let rt = HostRuntime;
    let grown = ZeroAsciiIgnoreCaseTrie::try_from_iter(rt.alloc(), NAMES)?;
    same(&rt, grown.as_bytes(), NAMES_TEXT);
    holds(&rt, is_full(without_case::<22, 3>(&NAMES), NAMES_TEXT));
    let small = without_case::<22, 2>(&NAMES);
    holds(&rt, is_refused(small, &ZeroTrieBuildError::StackExceeded));
    Ok(())
}

#[test]
fn arrays_without_case_are_refused() {
    let rt = HostRuntime;
    let by_bytes = without_case::<22, 3>(&[("DNT", 1), ("accept", 2)]);
    holds(&rt, is_refused(by_bytes, &ZeroTrieBuildError::Unsorted));
    let twice = without_case::<22, 3>(&[("DNT", 1), ("DNT", 2)]);
    holds(&rt, is_refused(twice, &ZeroTrieBuildError::Unsorted));
    let both_cases = without_case::<22, 3>(&[("DNT", 1), ("dnt", 2)]);
    holds(&rt, is_refused(both_cases, &ZeroTrieBuildError::MixedCase));
    let mixed = without_case::<22, 3>(&[("Accept", 1), ("access", 2)]);
    holds(&rt, is_refused(mixed, &ZeroTrieBuildError::MixedCase));
    let high = without_case::<22, 3>(&HIGH);
    holds(&rt, is_refused(high, &ZeroTrieBuildError::NonAsciiError));
}

/// The bytes from 0 to 100.
fn bytes_up_to_100() -> [u8; 101] {
    let mut bytes = [0; 101];
    for index in 0..101 {
        bytes[index] = index as u8;
    }
    bytes
}

/// Returns whether an array is filled with the text that is built in memory, too, and begins with
/// these bytes.
fn is_grown<const N: usize>(
    alloc: Global,
    built: Built<N>,
    items: &[(&[u8], usize)],
    front: &[u8],
) -> bool {
    match ZeroTrieSimpleAscii::try_from_sorted_slice(alloc, items) {
        Ok(grown) => grown.as_bytes().starts_with(front) && is_full(built, grown.as_bytes()),
        Err(_) => false,
    }
}

#[test]
fn a_hundred_edges_and_one() -> Result<(), Fail> {
    let rt = HostRuntime;
    let alloc = rt.alloc();
    let bytes = bytes_up_to_100();
    let all = keys_of(alloc, &bytes, 1)?;
    let (_, hundred) = all.as_slice().split_last().ok_or("empty")?;
    holds(
        &rt,
        is_grown(alloc, of_bytes::<301>(hundred), hundred, b"\xE0\x44"),
    );
    let more = of_bytes::<304>(&all);
    holds(&rt, is_refused(more, &ZeroTrieBuildError::StackExceeded));
    let more = of_bytes_with_stack::<304, 100>(&all);
    holds(&rt, is_refused(more, &ZeroTrieBuildError::StackExceeded));
    let more = of_bytes_with_stack::<304, 101>(&all);
    holds(&rt, is_grown(alloc, more, &all, b"\xE0\x45"));
    Ok(())
}

/// A trie that was built in an array and copied from there, or the error.
type Copied = Result<ZeroTrieSimpleAscii<Vec<u8>>, ZeroTrieBuildError>;

fn copied(alloc: Global, items: &[(&[u8], usize)]) -> Copied {
    ZeroTrieSimpleAscii::try_from_sorted_slice_with_const_builder(alloc, items)
}

fn copied_from<const N: usize, const K: usize>(alloc: Global, items: &[(&[u8], usize)]) -> Copied {
    ZeroTrieSimpleAscii::try_from_sorted_slice_sized::<N, K>(alloc, items)
}

fn is_copy(copied: Copied, text: &[u8]) -> bool {
    match copied {
        Ok(trie) => trie.as_bytes() == text && trie.byte_len() == text.len(),
        Err(_) => false,
    }
}

#[test]
fn arrays_are_copied() {
    let rt = HostRuntime;
    let alloc = rt.alloc();
    holds(&rt, is_copy(copied(alloc, &LITERALS), LITERALS_TEXT));
    holds(
        &rt,
        is_copy(copied_from::<20, 2>(alloc, &LITERALS), LITERALS_TEXT),
    );
    let small = copied_from::<15, 2>(alloc, &LITERALS);
    holds(&rt, is_refused(small, &ZeroTrieBuildError::BufferTooSmall));
    let shallow = copied_from::<16, 1>(alloc, &LITERALS);
    holds(&rt, is_refused(shallow, &ZeroTrieBuildError::StackExceeded));
}

#[test]
fn long_keys_are_copied() {
    let rt = HostRuntime;
    let alloc = rt.alloc();
    let mut text = [b'a'; 10000];
    let long = copied(alloc, &[(&text, 0)]);
    holds(&rt, is_refused(long, &ZeroTrieBuildError::BufferTooSmall));
    let short = copied(alloc, &[(&text[1..], 0)]);
    text[9999] = 0x80;
    holds(&rt, is_copy(short, &text));
}
