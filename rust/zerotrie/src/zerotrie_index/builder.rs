// Made from crates/zerotrie_index/src/builder.rt by rust/make: edit that.
//! Builds of an index.

use crate::rstd::prelude::*;
use crate::zerotrie_index::error::ZeroIndexBuildError;
use crate::zerotrie_index::hash::{GOLDEN, hash_of};
use crate::zerotrie_index::reader::bucket_of;
use crate::rstd::alloc::{AllocError, Allocator, Global};
use crate::zerotrie_base::{TrieKey, write_varint_meta2};

/// The most pairs that a bucket has. A build of pairs that do not fit tries another seed.
///
/// Of n keys in 2n buckets, 17 share one less than once in 10^19 / n times, if nobody has chosen
/// them for that.
pub const BUCKET_LIMIT: usize = 16;

/// How many seeds a build tries.
pub const SEEDS_TRIED: u64 = 8;

/// A pair, and the hash of its key.
#[derive(Clone, Copy)]
pub(in crate::made::zerotrie_index) struct Hashed<'a> {
    hash: u64,
    key: &'a [u8],
    value: usize,
}

/// Whether the key of a pair is below that of the first of others.
#[inline]
fn precedes<K: TrieKey>(pair: &(K, usize), others: &[(K, usize)]) -> bool {
    match others.first() {
        Some(next) => pair.0.key_bytes() < next.0.key_bytes(),
        None => true,
    }
}

/// Whether the keys strictly ascend by their bytes.
#[inline]
fn is_ascending<K: TrieKey>(items: &[(K, usize)]) -> bool {
    let mut left = items;
    while let Some((first, rest)) = left.split_first() {
        if !precedes(first, rest) {
            return false;
        }
        left = rest;
    }
    true
}

/// Returns the pairs with the hashes of their keys, in the order of the hashes.
#[inline]
fn hashed_of<K: TrieKey, A: Allocator>(
    alloc: A,
    seed: u64,
    items: &[(K, usize)],
) -> Result<Vec<Hashed<'_>, A>, AllocError> {
    let mut hashed = Vec::with_capacity(alloc, items.len())?;
    for (key, value) in items {
        let key = key.key_bytes();
        hashed.push(Hashed {
            hash: hash_of(seed, key),
            key,
            value: *value,
        })?;
    }
    Ok(hashed)
}

/// Returns how many pairs in front belong into the bucket of this number.
#[inline]
fn bucket_len(count: u32, number: u32, hashed: &[Hashed<'_>]) -> usize {
    let mut len = 0;
    while len < hashed.len() && bucket_of(count, hashed[len].hash) == number {
        len += 1;
    }
    len
}

/// Returns the marks of the hashes of a bucket.
#[inline]
fn marks_of(bucket: &[Hashed<'_>]) -> u32 {
    let mut marks = 0;
    for pair in bucket {
        marks |= 1 << (pair.hash % 32);
    }
    marks
}

/// Returns the entry of a bucket.
#[inline]
fn entry_of(start: u32, bucket: &[Hashed<'_>]) -> u64 {
    (u64::from(start) << 32) + u64::from(marks_of(bucket))
}

/// Appends a word.
#[inline]
fn put_word<A: Allocator>(bytes: &mut Vec<u8, A>, n: u64) -> Result<(), AllocError> {
    bytes.extend_from_slice(&n.to_le_bytes())?;
    Ok(())
}

/// Appends the record of a pair.
#[inline]
fn put_record<A: Allocator>(
    pool: &mut Vec<u8, A>,
    key: &[u8],
    value: usize,
) -> Result<(), AllocError> {
    pool.extend_from_slice(write_varint_meta2(key.len()).as_slice())?;
    put_word(pool, value as u64)?;
    pool.extend_from_slice(key)?;
    Ok(())
}

/// Appends the records of a bucket.
#[inline]
fn put_records<A: Allocator>(
    pool: &mut Vec<u8, A>,
    bucket: &[Hashed<'_>],
) -> Result<(), ZeroIndexBuildError> {
    for pair in bucket {
        put_record(pool, pair.key, pair.value)?;
        if pool.len() as u64 >= 1 << 32 {
            return Err(ZeroIndexBuildError::CapacityExceeded);
        }
    }
    Ok(())
}

/// Whether the key of a pair is among those of others.
#[inline]
fn repeats_in(pair: &Hashed<'_>, others: &[Hashed<'_>]) -> bool {
    for other in others {
        if other.key == pair.key {
            return true;
        }
    }
    false
}

/// Whether a bucket has a key twice. Calls itself as often as it has pairs.
#[inline]
fn repeats_key(bucket: &[Hashed<'_>]) -> bool {
    match bucket.split_first() {
        Some((first, rest)) => repeats_in(first, rest) || repeats_key(rest),
        None => false,
    }
}

/// Tests that a bucket is not too long and has no key twice. Compares a bounded number of keys.
#[inline]
fn test_bucket(bucket: &[Hashed<'_>]) -> Result<(), ZeroIndexBuildError> {
    let some = &bucket[..bucket.len().min(BUCKET_LIMIT + 1)];
    if repeats_key(some) {
        return Err(ZeroIndexBuildError::DuplicateKey);
    }
    if bucket.len() > BUCKET_LIMIT {
        return Err(ZeroIndexBuildError::Crowded);
    }
    Ok(())
}

/// Appends the entries of the buckets of pairs to the table, and their records to the empty pool.
#[inline]
fn put_buckets<A: Allocator>(
    table: &mut Vec<u8, A>,
    pool: &mut Vec<u8, A>,
    count: u32,
    hashed: &[Hashed<'_>],
) -> Result<(), ZeroIndexBuildError> {
    let mut at = 0;
    for number in 0..count {
        let rest = &hashed[at..];
        let len = bucket_len(count, number, rest);
        let bucket = &rest[..len];
        test_bucket(bucket)?;
        put_word(table, entry_of(pool.len() as u32, bucket))?;
        put_records(pool, bucket)?;
        at += len;
    }
    put_word(table, u64::from(pool.len() as u32) << 32)?;
    Ok(())
}

/// Returns the bytes of the index of pairs in this many buckets.
#[inline]
fn write_index<A: Allocator + Copy>(
    alloc: A,
    seed: u64,
    count: u32,
    hashed: &[Hashed<'_>],
) -> Result<Vec<u8, A>, ZeroIndexBuildError> {
    let mut bytes = Vec::new(alloc);
    put_word(&mut bytes, seed)?;
    put_word(&mut bytes, u64::from(count))?;
    let mut pool = Vec::new(alloc);
    put_buckets(&mut bytes, &mut pool, count, hashed)?;
    bytes.extend_from_slice(pool.as_slice())?;
    Ok(bytes)
}

/// Returns the bytes of an index of a slice under one seed, in this many buckets.
#[inline]
fn build_under<K: TrieKey, A: Allocator + Copy>(
    alloc: A,
    seed: u64,
    count: u32,
    items: &[(K, usize)],
) -> Result<Vec<u8, A>, ZeroIndexBuildError> {
    let mut hashed = hashed_of(alloc, seed, items)?;
    hashed.sort_unstable_by_key(|pair| pair.hash);
    write_index(alloc, seed, count, hashed.as_slice())
}

/// Returns the bytes of an index of a slice in any order. Tries `SEEDS_TRIED` seeds from this one
/// on.
///
/// ```
/// # use zerotrie::{rstd::examples::*, zerotrie_index::*, zerotrie_base::*, zerotrie_core::*, zerotrie_sealed::*};
/// let index = build(Global, 0, &[("ad", 22), ("adef", 33)])?;
/// let (head, rest) = index.as_slice().split_at(16);
/// let (entries, pool) = rest.split_at(40);
/// assert_eq!(head, b"\0\0\0\0\0\0\0\0\x04\0\0\0\0\0\0\0");
/// assert_eq!(&entries[..16], b"\x40\0\0\0\0\0\0\0\0\x40\0\0\x0B\0\0\0");
/// assert_eq!(&entries[16..32], b"\0\0\0\0\x18\0\0\0\0\0\0\0\x18\0\0\0");
/// assert_eq!(&entries[32..], b"\0\0\0\0\x18\0\0\0");
/// assert_eq!(pool, b"\x02\x16\0\0\0\0\0\0\0ad\x04\x21\0\0\0\0\0\0\0adef");
/// # Ok::<(), Fail>(())
/// ```
#[inline]
pub fn build<K: TrieKey, A: Allocator + Copy>(
    alloc: A,
    seed: u64,
    items: &[(K, usize)],
) -> Result<Vec<u8, A>, ZeroIndexBuildError> {
    let Ok(count) = u32::try_from(2 * items.len()) else {
        return Err(ZeroIndexBuildError::CapacityExceeded);
    };
    for tried in 0..SEEDS_TRIED {
        match build_under(
            alloc,
            seed.wrapping_add(tried.wrapping_mul(GOLDEN)),
            count.max(1),
            items,
        ) {
            Err(ZeroIndexBuildError::Crowded) => {}
            done => return done,
        }
    }
    Err(ZeroIndexBuildError::Crowded)
}

/// Returns the bytes of an index of a slice, whose keys must strictly ascend by their bytes.
#[inline]
pub fn build_sorted<K: TrieKey, A: Allocator + Copy>(
    alloc: A,
    seed: u64,
    items: &[(K, usize)],
) -> Result<Vec<u8, A>, ZeroIndexBuildError> {
    if !is_ascending(items) {
        return Err(ZeroIndexBuildError::Unsorted);
    }
    build(alloc, seed, items)
}

/// Returns the bytes of an index of all pairs of an iterator, in any order.
#[inline]
pub fn build_all<K: TrieKey, U: IntoIterator<Item = (K, usize)>>(
    alloc: Global,
    seed: u64,
    iter: U,
) -> Result<Vec<u8>, ZeroIndexBuildError>
where
{
    let given: Vec<(K, usize)> = iter.into_iter().collect_in(alloc)?;
    build(alloc, seed, given.as_slice())
}
