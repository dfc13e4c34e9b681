// Made from crates/zerotrie_checks/src/tests/tables.rt by rust/make: edit that.
//! The perfect hash, and the cache of its tables.

use crate::rstd::prelude::*;
use super::*;
use crate::rstd::linked_list_allocator::LocalHeap;
use crate::zerotrie_base::{
    PerfectByteHashMap, PerfectByteHashMapCacheOwned, TrieStore, ZeroTrieBuildError, are_distinct,
    f1, f2,
};

/// Returns whether the table answers each of its keys' places, and nothing at other bytes.
fn finds_its_keys<S: TrieStore>(table: &PerfectByteHashMap<S>) -> bool {
    for byte in 0..=255u8 {
        if table.get(byte) != table.keys().iter().position(|key| *key == byte) {
            return false;
        }
    }
    true
}

#[test]
fn known_tables() -> Result<(), Fail> {
    let rt = HostRuntime;
    let rows: [(&[u8], &[u8]); 12] = [
        (b"", &[0]),
        (b"ab", &[0, 0, 0, 0x62, 0x61]),
        (b"abc", &[0, 0, 0, 0, 0x63, 0x61, 0x62]),
        (b"ac", &[1, 0, 1, 0x63, 0x61]),
        (b"abd", &[0, 0, 1, 3, 0x61, 0x62, 0x64]),
        (b"aq", &[4, 0, 1, 0x61, 0x71]),
        (b"xyz", &[0, 0, 0, 0, 0x78, 0x79, 0x7A]),
        (b"aceg", &[1, 0, 0, 1, 1, 0x65, 0x61, 0x63, 0x67]),
        (b"JFNv", &[1, 0x62, 0, 2, 0, 0x4A, 0x46, 0x4E, 0x76]),
        (b"Jbej", &[2, 0, 0, 0x66, 0, 0x6A, 0x65, 0x62, 0x4A]),
        (
            b"abcdefghij",
            &[
                0, 0, 0, 0, 0, 0, 0, 0, 0, 0, 0, 0x64, 0x65, 0x66, 0x67, 0x68, 0x69, 0x6A, 0x61,
                0x62, 0x63,
            ],
        ),
        (
            b"abcdhirt",
            &[
                2, 0, 4, 0, 0, 1, 0, 0, 2, 0x68, 0x61, 0x62, 0x72, 0x74, 0x69, 0x64, 0x63,
            ],
        ),
    ];
    for (keys, bytes) in rows {
        assert!(are_distinct(keys));
        let table = PerfectByteHashMap::try_new(rt.alloc(), keys)?;
        same(&rt, table.as_bytes(), bytes);
        same(&rt, table.num_items(), keys.len());
        assert!(finds_its_keys(&table.as_borrowed()));
        assert!(table.as_borrowed() == PerfectByteHashMap::from_bytes(bytes));
    }
    Ok(())
}

#[test]
fn all_bytes() -> Result<(), Fail> {
    let rt = HostRuntime;
    let mut keys = Vec::new(rt.alloc());
    for byte in 0..=255u8 {
        keys.push(byte)?;
    }
    assert!(are_distinct(keys.as_slice()));
    let table = PerfectByteHashMap::try_new(rt.alloc(), keys.as_slice())?;
    same(&rt, table.get(200), Some(200));
    same(&rt, table.keys(), keys.as_slice());
    same(
        &rt,
        table.as_bytes().iter().filter(|b| **b == 0).count(),
        258,
    );
    assert!(finds_its_keys(&table));
    Ok(())
}

#[test]
fn no_tables() -> Result<(), Fail> {
    let rt = HostRuntime;
    let rows: [&[u8]; 3] = [&[], &[5], &[5, 0, 0x61, 0x62]];
    for bytes in rows {
        let table = PerfectByteHashMap::from_bytes(bytes);
        let mut found = 0usize;
        for byte in 0..=255u8 {
            found = found.saturating_add(table.get(byte).is_some() as usize);
        }
        assert!(found < 2);
        assert!(bytes.len() > 1 || found == 0 && table.num_items() == 0 && table.keys().is_empty()
        );
    }
    same(
        &rt,
        PerfectByteHashMap::from_store([5, 0, 0x61, 0x62]).keys(),
        b"b".as_slice(),
    );
    Ok(())
}

#[test]
fn f1_gives_the_bucket() {
    let rt = HostRuntime;
    same(&rt, f1(10, 0, 10), 0);
    same(&rt, f1(10, 1, 10), 4);
    let rows = [
        (0, 0, 1),
        (1, 1, 0),
        (2, 2, 2),
        (9, 9, 2),
        (11, 1, 5),
        (12, 2, 1),
        (19, 9, 7),
    ];
    for (byte, by_0, by_1) in rows {
        same(&rt, f1(byte, 0, 10), by_0);
        same(&rt, f1(byte, 1, 10), by_1);
        same(&rt, f1(byte, 9, 0), byte);
    }
}

#[test]
fn f2_gives_the_place() {
    let rt = HostRuntime;
    same(&rt, f2(2, 0, 10), 2);
    same(&rt, f2(2, 1, 10), 3);
    let rows = [
        (0, 0, 1),
        (1, 1, 0),
        (9, 9, 8),
        (10, 0, 1),
        (11, 1, 0),
        (12, 2, 3),
        (19, 9, 8),
    ];
    for (byte, by_0, by_1) in rows {
        same(&rt, f2(byte, 0, 10), by_0);
        same(&rt, f2(byte, 1, 10), by_1);
        same(&rt, f2(byte, 97, 0), byte);
    }
    same(&rt, f2(2, 96, 255), 98 ^ 196 ^ 49);
}

#[test]
fn are_distinct_tells_whether_a_byte_comes_twice() {
    let rt = HostRuntime;
    assert!(are_distinct(b"aceg"));
    assert!(!are_distinct(b"abca"));
}

#[test]
fn try_get_or_insert_answers_the_table() -> Result<(), Fail> {
    let rt = HostRuntime;
    let mut cache = PerfectByteHashMapCacheOwned::new_empty(rt.alloc());
    let keys = Vec::from_slice(rt.alloc(), b"aceg")?;
    assert!(are_distinct(keys.as_slice()));
    same(&rt, cache.try_get_or_insert(keys)?.get(b'e'), Some(0));
    let rows = [
        (b"aceg".as_slice(), b"\x01\x00\x00\x01\x01eacg".as_slice()),
        (b"xyz", b"\x00\x00\x00\x00xyz"),
        (b"aceg", b"\x01\x00\x00\x01\x01eacg"),
    ];
    for (keys, bytes) in rows {
        assert!(are_distinct(keys));
        let table = cache.try_get_or_insert(Vec::from_slice(rt.alloc(), keys)?)?;
        same(&rt, table.as_bytes(), bytes);
    }
    Ok(())
}

/// Over heaps of rising size a table is an error if an allocation fails, until the heap has room
/// for it. Then the cache still returns it, whether or not there was room for a second one.
#[test]
#[ignore = "needs a heap of limited size"]
fn every_size_of_heap() -> Result<(), Fail> {
    let rt = HostRuntime;
    assert!(are_distinct(b"aceg"));
    assert!(are_distinct(b"JFNv"));
    let mut refused = 0usize;
    for size in 0..200usize {
        let heap = LocalHeap::new(rt.alloc(), size * 16)?;
        let mut cache = PerfectByteHashMapCacheOwned::new_empty(&heap);
        if let Err(why) = cache.try_get_or_insert(Vec::from_slice(rt.alloc(), b"aceg")?) {
            assert!(why == ZeroTrieBuildError::OutOfMemory);
            refused = refused.saturating_add(1);
            continue;
        }
        if let Err(why) = cache.try_get_or_insert(Vec::from_slice(rt.alloc(), b"JFNv")?) {
            assert!(why == ZeroTrieBuildError::OutOfMemory);
            refused = refused.saturating_add(1);
        }
        let table = cache.try_get_or_insert(Vec::from_slice(rt.alloc(), b"aceg")?)?;
        same(&rt, table.get(b'e'), Some(0));
    }
    assert!(refused > 3 && refused < 190);
    Ok(())
}
