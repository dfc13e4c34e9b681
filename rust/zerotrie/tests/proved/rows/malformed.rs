// Made from tests/rows/malformed.rt.in by rust/make: edit that.
//! Walks and listings over bytes that are no trie of some kind. Their results are unspecified, but each walk has one for each call, and
//! each listing ends.

use crate::rstd::prelude::*;
use super::*;
use crate::zerotrie_all::CursorOp::{Probe, Step, Take};
use crate::zerotrie_all::bytes::walk;

/// The keys "abc" and "abcdef". Of its fronts two are tries, beside the empty one.
const WORDS: &[u8] = b"abc\x80def\x81";

const BYTES: &[&[u8]] = &[
    b"\xC2Bb\x01\x80\x81",
    b"\xC2aB\x01\x80\x81",
    b"\xD0abcdefghijklmnop\x01\x02\x03\x04\x05\x06\x07\x08\x09\x0A\x0B\x0C\x0D\x0E\x0F\
    \x80\x81\x82\x83\x84\x85\x86\x87\x88\x89\x8A\x8B\x8C\x8D\x8E\x8F",
    b"\xA0\x81",
    b"\xA1a\x81",
    b"\xA3\xC3\x81",
    b"\xC3abc\x02\x01\x80\x81\x82",
    // Offsets of nine bytes, and of 2^56.
    b"\xEFbab\0\0\0\0\0\0\0\0\x01\x80\x81",
    b"\xE1\xDF\xDF\xDF\xDF\xDF\xDF\xDF\xDF\x5F",
    // A value of 2^64.
    b"\x91\xEF\xEF\xEF\xEF\xEF\xEF\xEF\xEF\x70",
    b"\x8Bad\x90\x06\xC2eg\x03f\x90\x11hk\x90\x1C",
    b"\xC5AFISU\x02\x04\x0A\x0CU\x80R\x81\xC2RT\x01\x82\x83A\x84\xC2KS\x01\x85\x86",
    b"a",
    b"\x80\x80",
    b"\xC1a\x81",
    b"\xC2ba\x01\x80\x80",
    b"\xE1bab\0\x01\x80\x81",
    b"\x90",
    b"\xA1\xC3\xA1\xA5\x81",
];

/// The number of results of a walk of five calls, in each kind.
fn results_on(alloc: Global, bytes: &[u8]) -> Result<[usize; 4], Fail> {
    let ops = [Probe(0), Take, Probe(1), Step(b'a'), Take];
    Ok([
        walk::<Simple>(alloc, bytes, &ops)?.len(),
        walk::<Ignore>(alloc, bytes, &ops)?.len(),
        walk::<Hash>(alloc, bytes, &ops)?.len(),
        walk::<Ext>(alloc, bytes, &ops)?.len(),
    ])
}

#[test]
fn walks_return() -> Result<(), Fail> {
    let rt = HostRuntime;
    let alloc = rt.alloc();
    for len in 0..=WORDS.len() {
        same(&rt, results_on(alloc, &WORDS[..len])?, [5; 4]);
    }
    for bytes in BYTES {
        same(&rt, results_on(alloc, bytes)?, [5; 4]);
    }
    let mut long = crate::rstd::vec_in![in alloc; b'a'; 100_000]?;
    long.push(0x80)?;
    same(&rt, results_on(alloc, long.as_slice())?, [5; 4]);
    Ok(())
}

/// How many pairs are listed, in each kind, and how many keys the map of all has, or none if a key is not text.
fn listed_of(alloc: Global, bytes: &[u8]) -> Result<[(usize, Option<usize>); 4], Fail> {
    let (simple, ignore) = (ZeroTrieSimpleAscii::from_bytes(bytes), ZeroAsciiIgnoreCaseTrie::from_bytes(bytes));
    let (hash, ext) = (ZeroTriePerfectHash::from_bytes(bytes), ZeroTrieExtendedCapacity::from_bytes(bytes));
    Ok([
        (simple.iter(alloc).count(), simple.to_btreemap(alloc).ok().map(|map| map.len())),
        (ignore.iter(alloc).count(), ignore.to_btreemap(alloc).ok().map(|map| map.len())),
        (hash.iter(alloc).count(), hash.to_btreemap(alloc).ok().map(|map| map.len())),
        (ext.iter(alloc).count(), ext.to_btreemap(alloc).ok().map(|map| map.len())),
    ])
}

/// A listing has at most a pair for each byte, and a map at most a key for each pair.
fn listings_end<H: Abort>(rt: &H, alloc: Global, bytes: &[u8]) -> Result<(), Fail> {
    for (pairs, keys) in listed_of(alloc, bytes)? {
        holds(rt, pairs <= bytes.len() && keys.unwrap_or(0) <= pairs);
    }
    Ok(())
}

#[test]
fn listings_return() -> Result<(), Fail> {
    let rt = HostRuntime;
    for len in 0..=WORDS.len() {
        listings_end(&rt, rt.alloc(), &WORDS[..len])?;
    }
    for bytes in BYTES {
        listings_end(&rt, rt.alloc(), bytes)?;
    }
    let [(pairs, keys), _, _, _] = listed_of(rt.alloc(), WORDS)?;
    same(&rt, (pairs, keys), (2, Some(2)));
    Ok(())
}
