// Made from crates/zerotrie_checks/src/tests/builder.rt by rust/make: edit that.
//! Builds into memory and into arrays, and the plain encoder.

use crate::rstd::prelude::*;
use super::*;
use counting::Counting;
use crate::rstd::linked_list_allocator::LocalHeap;
use crate::rstd::collections::VecDeque;
use crate::zerotrie_build::{
    ByteSliceWithIndices, TrieBuilderStore, ZeroTrieBuilder, ZeroTrieBuilderConst, build_slice,
    bytes_within, encoded_len, fill_from_end,
};
use crate::zerotrie_core::{
    Ext, Hash, Ignore, Simple, ZeroTrieBuildError, ZeroTrieBuilderOptions, ZeroTrieWithOptions,
    get_counted, plain_encode,
};

type Builder = ZeroTrieBuilder<VecDeque<u8>>;

/// Returns the text of sorted items.
fn text_of<K: ZeroTrieWithOptions>(
    alloc: Global,
    items: ByteSliceWithIndices<'_>,
) -> Result<Vec<u8>, ZeroTrieBuildError> {
    let options = ZeroTrieBuilderOptions::of::<K>();
    let builder: Builder = ZeroTrieBuilder::from_sorted_tuple_slice(alloc, items, options)?;
    Ok(builder.to_bytes(alloc)?)
}

/// Returns the text by the slice route.
fn by_slice<K: ZeroTrieWithOptions>(
    alloc: Global,
    items: &[(&[u8], usize)],
) -> Result<Vec<u8>, ZeroTrieBuildError> {
    text_of::<K>(alloc, ByteSliceWithIndices::from_byte_slice(items))
}

/// Returns whether `encoded_len` and the text have this length.
fn has_len<K: ZeroTrieWithOptions>(
    alloc: Global,
    items: &[(&[u8], usize)],
    len: usize,
) -> Result<bool, Fail> {
    let given = ByteSliceWithIndices::from_byte_slice(items);
    let told = encoded_len(alloc, given, ZeroTrieBuilderOptions::of::<K>())?;
    Ok(told == len && text_of::<K>(alloc, given)?.len() == len)
}

/// Returns the keys of one byte each, with value 0.
fn keys_of(alloc: Global, bytes: &[u8]) -> Result<Vec<(&[u8], usize)>, Fail> {
    let mut items: Vec<(&[u8], usize)> = Vec::new(alloc);
    for byte in bytes.chunks(1) {
        items.push((byte, 0))?;
    }
    Ok(items)
}

#[test]
fn lengths_beforehand() -> Result<(), Fail> {
    let rt = HostRuntime;
    let alloc = rt.alloc();
    let all: Vec<u8> = (0..=255u8).collect_in(alloc)?;
    let items = keys_of(alloc, all.as_slice())?;
    let bytes = items.as_slice();
    let letters = bytes.get(97..113).ok_or("short")?;
    assert!(has_len::<Hash>(alloc, bytes, 1281)?);
    assert!(has_len::<Ext>(alloc, bytes, 1281)?);
    assert!(has_len::<Hash>(alloc, letters, 65)?);
    assert!(has_len::<Simple>(alloc, letters, 48)?);
    Ok(())
}

#[test]
fn lengths_of_long_keys() -> Result<(), Fail> {
    let rt = HostRuntime;
    let alloc = rt.alloc();
    let key = crate::rstd::vec_in![in alloc; b'a'; 100000]?;
    let long: [(&[u8], usize); 1] = [(key.as_slice(), 0)];
    assert!(has_len::<Simple>(alloc, &long, 100001)?);
    assert!(has_len::<Ignore>(alloc, &long, 100001)?);
    assert!(has_len::<Hash>(alloc, &long, 100001)?);
    assert!(has_len::<Ext>(alloc, &long, 100001)?);
    assert!(has_len::<Ext>(alloc, &[], 0)?);
    Ok(())
}

/// Returns whether a build into a store of its own grows it once, by zeros, and sets each byte of
/// the text once, at places that ascend.
fn writes_in_place<K: ZeroTrieWithOptions>(
    alloc: Global,
    items: &[(&[u8], usize)],
    len: usize,
) -> Result<bool, Fail> {
    let given = ByteSliceWithIndices::from_byte_slice(items);
    let builder: ZeroTrieBuilder<Counting> = ZeroTrieBuilder::from_sorted_tuple_slice(
        alloc,
        given,
        ZeroTrieBuilderOptions::of::<K>(),
    )?;
    let text = text_of::<K>(alloc, given)?;
    let counts = (builder.data.zeros, builder.data.others, builder.data.sets);
    Ok(
        text.len() == len
            && builder.to_bytes(alloc)? == text
            && counts == (1, 0, len)
            && builder.data.ascends,
    )
}

#[test]
fn a_build_writes_the_store_in_place() -> Result<(), Fail> {
    let rt = HostRuntime;
    let alloc = rt.alloc();
    let four: [(&[u8], usize); 4] = [(b"", 11), (b"ad", 22), (b"adef", 33), (b"adghk", 44)];
    assert!(writes_in_place::<Simple>(alloc, &four, 16)?);
    let no_case: [(&[u8], usize); 6] = [
        (b"", 0),
        (b"aBc", 1),
        (b"aBcD", 2),
        (b"aBcF", 4),
        (b"aBce", 3),
        (b"aBcghi", 5),
    ];
    assert!(writes_in_place::<Ignore>(alloc, &no_case, 19)?);
    let spans: [(&[u8], usize); 3] = [
        (b"b\xC3\xA5r", 2),
        (b"b\xC3\xA5zz\xC3\xB8\xC3\xB8", 3),
        (b"foo", 1),
    ];
    assert!(writes_in_place::<Hash>(alloc, &spans, 22)?);
    let all: Vec<u8> = (0..=255u8).collect_in(alloc)?;
    let bytes = keys_of(alloc, all.as_slice())?;
    let letters = numbered(alloc, all.get(97..113).ok_or("short")?, 1)?;
    assert!(writes_in_place::<Hash>(alloc, letters.as_slice(), 65)?);
    assert!(writes_in_place::<Hash>(alloc, bytes.as_slice(), 1281)?);
    Ok(())
}

/// Returns the text, with the memory of both passes from the heap.
fn over_heap<K: ZeroTrieWithOptions>(
    alloc: Global,
    heap: &LocalHeap,
    items: &[(&[u8], usize)],
) -> Result<Vec<u8>, ZeroTrieBuildError> {
    let items = ByteSliceWithIndices::from_byte_slice(items);
    if !items.is_sorted() {
        return Err(ZeroTrieBuildError::Unsorted);
    }
    let store: VecDeque<u8> = build_slice(alloc, heap, items, ZeroTrieBuilderOptions::of::<K>())?;
    Ok(store.atbs_to_bytes(alloc)?)
}

/// Over heaps of rising size a build is refused if memory runs out, at a later request each time,
/// until it has its text. All memory is given back.
#[test]
#[ignore = "needs a heap of limited size"]
fn every_size_of_heap() -> Result<(), Fail> {
    let rt = HostRuntime;
    let alloc = rt.alloc();
    let bytes: Vec<u8> = (96..112u8).collect_in(alloc)?;
    let items = keys_of(alloc, bytes.as_slice())?;
    let text = by_slice::<Hash>(alloc, items.as_slice())?;
    let mut refused = 0usize;
    for size in 0..200usize {
        let heap = LocalHeap::new(alloc, size * 64)?;
        match over_heap::<Hash>(alloc, &heap, items.as_slice()) {
            Ok(built) => same(&rt, built.as_slice(), text.as_slice()),
            Err(why) => {
                assert!(why == ZeroTrieBuildError::OutOfMemory);
                refused = refused.saturating_add(1);
            }
        }
        same(&rt, heap.used(), 0);
    }
    assert!(refused > 10 && refused < 190);
    Ok(())
}

/// Returns 4,913 keys of three bytes in ascending order, one after another. All of their bytes are
/// multiples of the step.
fn many_keys(alloc: Global, step: u8) -> Result<Vec<u8>, Fail> {
    let mut keys = Vec::new(alloc);
    for number in 0..4913usize {
        for digit in [number / 289 % 17, number / 17 % 17, number % 17] {
            keys.push((digit as u8).wrapping_mul(step))?;
        }
    }
    Ok(keys)
}

/// Returns 8,192 keys of thirteen letters `a` or `b` in ascending order, one after another. Each
/// branch is to two keys or more.
fn keys_of_two_letters(alloc: Global) -> Result<Vec<u8>, Fail> {
    let mut keys = Vec::new(alloc);
    for number in 0..8192usize {
        for bit in (0..13u32).rev() {
            keys.push(if number >> bit & 1 == 1 { b'b' } else { b'a' })?;
        }
    }
    Ok(keys)
}

/// Returns the items of keys of so many bytes, with their numbers as values.
fn numbered(alloc: Global, keys: &[u8], len: usize) -> Result<Vec<(&[u8], usize)>, Fail> {
    let mut items: Vec<(&[u8], usize)> = Vec::new(alloc);
    for key in keys.chunks(len) {
        items.push((key, items.len()))?;
    }
    Ok(items)
}

/// Returns whether the text of the items is as long as `encoded_len` says, and has each of the keys.
fn has_all<K: ZeroTrieWithOptions>(alloc: Global, items: &[(&[u8], usize)]) -> Result<bool, Fail> {
    let text = by_slice::<K>(alloc, items)?;
    let mut all = has_len::<K>(alloc, items, text.len())?;
    for (key, value) in items {
        all &= get_counted::<K>(text.as_slice(), key).0 == Some(*value);
    }
    Ok(all)
}

/// Returns whether the text of many items has all of them.
fn has_many<K: ZeroTrieWithOptions>(alloc: Global, step: u8) -> Result<bool, Fail> {
    let keys = many_keys(alloc, step)?;
    let items = numbered(alloc, keys.as_slice(), 3)?;
    has_all::<K>(alloc, items.as_slice())
}

/// Returns whether the text of many items that branch to two has all of them.
fn has_twos<K: ZeroTrieWithOptions>(alloc: Global) -> Result<bool, Fail> {
    let keys = keys_of_two_letters(alloc)?;
    let items = numbered(alloc, keys.as_slice(), 13)?;
    has_all::<K>(alloc, items.as_slice())
}

#[test]
fn many_items() -> Result<(), Fail> {
    let rt = HostRuntime;
    let alloc = rt.alloc();
    assert!(has_many::<Simple>(alloc, 7)?);
    assert!(has_many::<Ignore>(alloc, 3)?);
    assert!(has_many::<Hash>(alloc, 15)?);
    assert!(has_many::<Ext>(alloc, 15)?);
    Ok(())
}

/// Items each of whose branches is to two have a text with all of them.
#[test]
fn many_branches_to_two() -> Result<(), Fail> {
    let rt = HostRuntime;
    let alloc = rt.alloc();
    assert!(has_twos::<Simple>(alloc)?);
    assert!(has_twos::<Hash>(alloc)?);
    Ok(())
}

/// Each key is a prefix of the next, so the text has thousands of nodes and no branch.
#[test]
fn many_keys_in_a_row() -> Result<(), Fail> {
    let rt = HostRuntime;
    let alloc = rt.alloc();
    let long = crate::rstd::vec_in![in alloc; b'b'; 4200]?;
    let mut items: Vec<(&[u8], usize)> = Vec::new(alloc);
    for len in 0..4200usize {
        items.push((long.get(..len).ok_or("short")?, len))?;
    }
    let text = by_slice::<Simple>(alloc, items.as_slice())?;
    let key = long.get(..4000).ok_or("short")?;
    assert!(get_counted::<Simple>(text.as_slice(), key).0 == Some(4000));
    Ok(())
}

const ITEMS: [(&str, usize); 2] = [("ad", 22), ("adef", 33)];

const TEXT: &[u8] = b"ad\x90\x06ef\x90\x11";

#[test]
fn buffers_are_filled_from_their_end() -> Result<(), Fail> {
    let rt = HostRuntime;
    let items = ByteSliceWithIndices::from_str_slice(&ITEMS);
    let mut buffer = [7; 10];
    same(&rt, fill_from_end::<0>(&mut buffer, items)?, 2);
    same(&rt, &buffer[..2], [7, 7].as_slice());
    same(&rt, &buffer[2..], TEXT);
    let small = fill_from_end::<0>(&mut buffer[..7], items);
    same(&rt, small, Err(ZeroTrieBuildError::BufferTooSmall));

    same(
        &rt,
        bytes_within::<0>(rt.alloc(), 8, items)?.as_slice(),
        TEXT,
    );
    let small = bytes_within::<0>(rt.alloc(), 7, items);
    assert!(small.is_err_and(|e| e == ZeroTrieBuildError::BufferTooSmall));
    Ok(())
}

#[test]
fn arrays_are_full_or_not() -> Result<(), Fail> {
    let rt = HostRuntime;
    let items = ByteSliceWithIndices::from_str_slice(&ITEMS);
    let full = ZeroTrieBuilderConst::<8>::from_tuple_slice(items)?;
    same(&rt, full.build()?.as_slice(), TEXT);
    let larger = ZeroTrieBuilderConst::<9>::from_tuple_slice(items)?;
    same(&rt, larger.as_bytes(), TEXT);
    assert!(larger
            .build()
            .is_err_and(|e| e == ZeroTrieBuildError::BufferTooLarge(8))
    );
    Ok(())
}

#[test]
fn refusal_for_another_cause() -> Result<(), Fail> {
    let rt = HostRuntime;
    let table: [([(&[u8], usize); 2], ZeroTrieBuildError); 3] = [
        (
            [(&[0x61], 1), (&[0xE5], 2)],
            ZeroTrieBuildError::NonAsciiError,
        ),
        ([(b"b", 1), (b"a", 2)], ZeroTrieBuildError::Unsorted),
        ([(b"a", 1), (b"a", 2)], ZeroTrieBuildError::Unsorted),
    ];
    for (items, error) in &table {
        assert!(plain_encode(rt.alloc(), items).err().as_ref() == Some(error));
    }
    Ok(())
}
