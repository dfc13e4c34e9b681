// Made from crates/zerotrie_tests/src/tests/refusals.rt by rust/make: edit that.
//! Pairs whose build returns an error.

use crate::rstd::prelude::*;
use super::*;

/// Items, and the error of building them.
type Row<'a> = (&'a [(&'a [u8], usize)], ZeroTrieBuildError);

/// A key that is given twice.
const TWICE: &[(&[u8], usize)] = &[(b"a", 1), (b"b", 2), (b"b", 3)];

/// A key that is not ASCII.
const HIGH: &[(&[u8], usize)] = &[(b"a", 1), (b"\xE5", 2)];

/// Returns whether a build of the items in any order returns this error.
fn is_refused_in_any_order<K: AsciiKind>(alloc: Global, row: &Row<'_>) -> bool {
    let items = row.0.iter().copied();
    is_refused(AsciiTrie::<K, Vec<u8>>::try_from_iter(alloc, items), &row.1)
}

/// Returns whether a build of the items as a slice that ascends returns this error.
fn is_refused_as_slice<K: AsciiKind>(alloc: Global, row: &Row<'_>) -> bool {
    is_refused(
        AsciiTrie::<K, Vec<u8>>::try_from_sorted_slice(alloc, row.0),
        &row.1,
    )
}

const SIMPLE: &[Row<'static>] = &[
    (TWICE, ZeroTrieBuildError::DuplicateKey),
    (HIGH, ZeroTrieBuildError::NonAsciiError),
];

const SIMPLE_SLICES: &[Row<'static>] = &[
    (TWICE, ZeroTrieBuildError::Unsorted),
    (
        &[(b"foo", 1), (b"bar", 2), (b"bazzoo", 3)],
        ZeroTrieBuildError::Unsorted,
    ),
    (HIGH, ZeroTrieBuildError::NonAsciiError),
];

#[test]
fn refused_with_case() {
    let rt = HostRuntime;
    let alloc = rt.alloc();
    for row in SIMPLE {
        holds(&rt, is_refused_in_any_order::<Simple>(alloc, row));
    }
    for row in SIMPLE_SLICES {
        holds(&rt, is_refused_as_slice::<Simple>(alloc, row));
    }
}

const CASELESS: &[Row<'static>] = &[
    (
        &[(b"bar", 1), (b"baZ", 2), (b"baR", 2)],
        ZeroTrieBuildError::MixedCase,
    ),
    (
        &[(b"ab", 1), (b"Ac", 2), (b"Ad", 3), (b"ae", 4)],
        ZeroTrieBuildError::MixedCase,
    ),
    (
        &[(b"Accept", 1), (b"accept", 2)],
        ZeroTrieBuildError::MixedCase,
    ),
    (
        &[(b"Accept-CH", 1), (b"Accept-Charset", 2)],
        ZeroTrieBuildError::MixedCase,
    ),
    (TWICE, ZeroTrieBuildError::DuplicateKey),
    (
        &[(b"a", 1), (b"\xC3\xA9", 2)],
        ZeroTrieBuildError::NonAsciiError,
    ),
];

/// The keys of a slice ascend by their bytes.
const CASELESS_SLICES: &[Row<'static>] = &[
    (&[(b"bar", 1), (b"baZ", 2)], ZeroTrieBuildError::Unsorted),
    (
        &[(b"Ac", 2), (b"Ad", 3), (b"ab", 1), (b"ae", 4)],
        ZeroTrieBuildError::MixedCase,
    ),
];

#[test]
fn refused_without_case() {
    let rt = HostRuntime;
    let alloc = rt.alloc();
    for row in CASELESS {
        holds(&rt, is_refused_in_any_order::<Ignore>(alloc, row));
    }
    for row in CASELESS_SLICES {
        holds(&rt, is_refused_as_slice::<Ignore>(alloc, row));
    }
}

/// Returns whether a key is refused beside those without case.
fn is_refused_beside_mixed(alloc: Global, key: &[u8]) -> bool {
    let items: [(&[u8], usize); 7] = [
        (key, 6),
        (b"", 0),
        (b"aBc", 1),
        (b"aBcD", 2),
        (b"aBcF", 4),
        (b"aBce", 3),
        (b"aBcghi", 5),
    ];
    is_refused_in_any_order::<Ignore>(alloc, &(&items, ZeroTrieBuildError::MixedCase))
}

/// Keys that begin like another but for the case of a letter.
const BESIDE_MIXED: &[&[u8]] = &[b"A", b"ab", b"abc", b"aBcd", b"aBcgHi"];

#[test]
fn refused_beside_mixed_keys() {
    let rt = HostRuntime;
    for key in BESIDE_MIXED {
        holds(&rt, is_refused_beside_mixed(rt.alloc(), key));
    }
}

const TEXT_TWICE: &[(&str, usize)] = &[("a", 1), ("b", 2), ("b", 3)];

#[test]
fn refused_with_any_bytes() {
    let rt = HostRuntime;
    let alloc = rt.alloc();
    let error = ZeroTrieBuildError::DuplicateKey;
    holds(
        &rt,
        is_refused(hashed_of::<Hash>(alloc, TEXT_TWICE), &error),
    );
    holds(&rt, is_refused(any_of(alloc, TEXT_TWICE), &error));
    let error = ZeroTrieBuildError::Unsorted;
    let hashed = ZeroTriePerfectHash::try_from_sorted_slice(alloc, TWICE);
    holds(&rt, is_refused(hashed, &error));
    let any = ZeroTrie::try_from_sorted_slice(alloc, TWICE);
    holds(&rt, is_refused(any, &error));
}
