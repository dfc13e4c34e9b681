// Made from crates/zerotrie_index/src/well_formed.rt by rust/make: edit that.
//! Validation of the bytes of an index.

use crate::zerotrie_index::builder::BUCKET_LIMIT;
use crate::zerotrie_index::hash::hash_of;
use crate::zerotrie_index::reader::{bucket_of, find_in, parts_of, read_record, read_word};

/// Where a bucket is.
#[derive(Clone, Copy)]
struct Place {
    seed: u64,
    count: u32,
    number: u32,
    entry: u64,
}

/// Whether a key belongs into a bucket and is marked in its entry.
fn is_at(place: Place, key: &[u8]) -> bool {
    let hash = hash_of(place.seed, key);
    bucket_of(place.count, hash) == place.number && (place.entry >> (hash % 32)) % 2 == 1
}

/// Whether bytes are the records of a bucket that has at most `left` pairs.
fn is_bucket(place: Place, left: usize, records: &[u8]) -> bool {
    if records.is_empty() {
        return true;
    }
    let Some(record) = read_record(records) else {
        return false;
    };
    if left == 0 {
        return false;
    }
    if !is_at(place, record.key) {
        return false;
    }
    if find_in(record.rest, record.key).is_some() {
        return false;
    }
    is_bucket(place, left - 1, record.rest)
}

/// Returns the bytes of a pool up to where another bucket starts, and those after it.
fn split_pool(pool: &[u8], start: u64, end: u64) -> Option<(&[u8], &[u8])> {
    let len = (end >> 32).checked_sub(start >> 32)?;
    pool.split_at_checked(len as usize)
}

/// Whether a table and a pool are those of buckets.
fn are_buckets(seed: u64, count: u32, table: &[u8], pool: &[u8]) -> bool {
    let Some((first, after)) = read_word(table) else {
        return false;
    };
    if first >> 32 != 0 {
        return false;
    }
    let mut entry = first;
    let mut table = after;
    let mut pool = pool;
    for number in 0..count {
        let Some((next, after)) = read_word(table) else {
            return false;
        };
        let Some((records, rest)) = split_pool(pool, entry, next) else {
            return false;
        };
        let place = Place {
            seed,
            count,
            number,
            entry,
        };
        if !is_bucket(place, BUCKET_LIMIT, records) {
            return false;
        }
        entry = next;
        table = after;
        pool = rest;
    }
    if !table.is_empty() {
        return false;
    }
    pool.is_empty()
}

/// Returns whether bytes are an index of some pairs. Does not allocate, and reads each byte a
/// bounded number of times.
///
/// ```
/// # use zerotrie::{rstd::examples::*, zerotrie_index::*, zerotrie_base::*, zerotrie_core::*, zerotrie_sealed::*};
/// use zerotrie::zerotrie_index::is_well_formed;
///
/// let index = build(Global, 0, &[("in", 1), ("on", 2)])?;
/// assert!(is_well_formed(index.as_slice()) && !is_well_formed(&index.as_slice()[1..]));
/// # Ok::<(), Fail>(())
/// ```
pub fn is_well_formed(bytes: &[u8]) -> bool {
    let Some(parts) = parts_of(bytes) else {
        return false;
    };
    if parts.count == 0 {
        return false;
    }
    are_buckets(parts.seed, parts.count, parts.table, parts.pool)
}
