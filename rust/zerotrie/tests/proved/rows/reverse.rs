// Made from tests/rows/reverse.rt.in by rust/make: edit that.
//! Reverse look-ups, beside scans of the pairs.

use crate::rstd::prelude::*;
use super::*;
use crate::zerotrie_core::{Ext, Hash, Ignore, Simple, ZeroTrieWithOptions, first_fault, first_key_of};
use crate::zerotrie_reverse::{KeysByValue, first_key_by_places};

/// All words of up to four letters, with values that come more than once and rise and fall.
fn words(alloc: Global) -> Result<Vec<(Vec<u8>, usize)>, AllocError> {
    let mut words = Vec::new(alloc);
    for number in 0..341_usize {
        let mut word = Vec::new(alloc);
        let mut left = number;
        while left > 0 {
            word.push(b"ab-d"[(left - 1) % 4])?;
            left = (left - 1) / 4;
        }
        words.push((word, number * number % 97 * 1000))?;
    }
    Ok(words)
}

/// Whether a table of so many places finds what a scan does, for values up to 100 thousand.
fn agrees<K: ZeroTrieWithOptions>(alloc: Global, bytes: &[u8], places: usize) -> Result<bool, Fail> {
    let table = KeysByValue::new::<K>(alloc, bytes)?;
    for number in 0..200_usize {
        let value = number * 500;
        if table.first_key_of(alloc, value)? != first_key_of::<K>(alloc, bytes, value)? {
            return Ok(false);
        }
        let places = table.places().ok_or("no places")?;
        if first_key_by_places::<K>(alloc, bytes, places, value)? != table.first_key_of(alloc, value)? {
            return Ok(false);
        }
    }
    Ok(table.len() == places)
}

#[test]
fn tables_find_what_scans_find() -> Result<(), Fail> {
    let rt = HostRuntime;
    let alloc = rt.alloc();
    let trie = ZeroTrieSimpleAscii::try_from_iter(alloc, words(alloc)?)?;
    holds(&rt, agrees::<Simple>(alloc, trie.as_bytes(), 341)?);
    let trie = ZeroAsciiIgnoreCaseTrie::try_from_iter(alloc, words(alloc)?)?;
    holds(&rt, agrees::<Ignore>(alloc, trie.as_bytes(), 341)?);
    let trie = ZeroTriePerfectHash::try_from_iter(alloc, words(alloc)?)?;
    holds(&rt, agrees::<Hash>(alloc, trie.as_bytes(), 341)?);
    let trie = ZeroTrieExtendedCapacity::try_from_iter(alloc, words(alloc)?)?;
    holds(&rt, agrees::<Ext>(alloc, trie.as_bytes(), 341)?);
    holds(&rt, agrees::<Simple>(alloc, b"", 0)?);
    holds(&rt, agrees::<Simple>(alloc, b"\x80", 1)?);
    Ok(())
}

#[test]
fn spans_and_greatest_values_have_places() -> Result<(), Fail> {
    let rt = HostRuntime;
    let alloc = rt.alloc();
    let words = [("", usize::MAX), ("é", 0), ("éé", usize::MAX - 1), ("éa", usize::MAX / 2 + 1), ("日本", 0)];
    let trie = ZeroTriePerfectHash::try_from_iter(alloc, words)?;
    let table = KeysByValue::new::<Hash>(alloc, trie.as_bytes())?;
    same(&rt, table.len(), 5);
    for (word, value) in words {
        let key = table.first_key_of(alloc, value)?.ok_or("no key")?;
        holds(&rt, key.as_slice() == word.as_bytes() || value == 0);
    }
    holds(&rt, table.first_key_of(alloc, 0)? == first_key_of::<Hash>(alloc, trie.as_bytes(), 0)?);
    Ok(())
}

#[test]
fn a_table_of_malformed_bytes_scans_them() -> Result<(), Fail> {
    let rt = HostRuntime;
    let alloc = rt.alloc();
    holds(&rt, first_fault::<Simple, _>(alloc, b"\x81\x82")?.is_some());
    let table = KeysByValue::new::<Simple>(alloc, b"\x81\x82")?;
    same(&rt, table.len(), 0);
    same(&rt, table.first_key_of(alloc, 2)?.map(|key| key.len()), Some(0));
    same(&rt, table.first_key_of(alloc, 3)?.map(|key| key.len()), None);
    Ok(())
}
