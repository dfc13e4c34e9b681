// Made from crates/zerotrie_index/src/reader.rt by rust/make: edit that.
//! What the bytes of an index are read by.

use crate::zerotrie_index::hash::eight_at;
use crate::zerotrie_base::read_varint_meta2;

/// Returns the number of a hash's bucket.
#[inline(always)]
pub(in crate::made::zerotrie_index) fn bucket_of(count: u32, hash: u64) -> u32 {
    ((hash >> 32) * u64::from(count) >> 32) as u32
}

/// Reads the word that the bytes begin with. Returns it and the bytes after it.
#[inline(always)]
pub(in crate::made::zerotrie_index) fn read_word(bytes: &[u8]) -> Option<(u64, &[u8])> {
    let (front, rest) = bytes.split_first_chunk::<8>()?;
    Some((u64::from_le_bytes(*front), rest))
}

/// Reads the number that the bytes begin with. Returns it and the bytes after it.
#[inline(always)]
fn read_number(bytes: &[u8]) -> Option<(usize, &[u8])> {
    let (start, rest) = bytes.split_first()?;
    if *start >= 64 {
        return None;
    }
    read_varint_meta2(*start, rest)
}

/// A record, and the bytes after it.
#[derive(Clone, Copy)]
pub(in crate::made::zerotrie_index) struct Record<'a> {
    pub key: &'a [u8],
    pub value: usize,
    pub rest: &'a [u8],
}

/// Reads the record that the bytes begin with.
#[inline(always)]
pub(in crate::made::zerotrie_index) fn read_record(bytes: &[u8]) -> Option<Record<'_>> {
    let (len, rest) = read_number(bytes)?;
    let (value, rest) = read_word(rest)?;
    let (key, rest) = rest.split_at_checked(len)?;
    let value = usize::try_from(value).ok()?;
    Some(Record { key, value, rest })
}

/// Finds the value of a key among records.
#[inline(always)]
pub(in crate::made::zerotrie_index) fn find_in(records: &[u8], key: &[u8]) -> Option<usize> {
    let mut rest = records;
    while let Some(record) = read_record(rest) {
        if record.key == key {
            return Some(record.value);
        }
        rest = record.rest;
    }
    None
}

/// The parts of an index.
#[derive(Clone, Copy)]
pub(in crate::made::zerotrie_index) struct Parts<'a> {
    pub seed: u64,
    pub count: u32,
    pub table: &'a [u8],
    pub pool: &'a [u8],
}

/// Takes an index apart.
#[inline(always)]
pub(in crate::made::zerotrie_index) fn parts_of(bytes: &[u8]) -> Option<Parts<'_>> {
    let (seed, rest) = read_word(bytes)?;
    let (count, rest) = read_word(rest)?;
    let count = u32::try_from(count).ok()?;
    let len = (count as usize).checked_add(1)?.checked_mul(8)?;
    let (table, pool) = rest.split_at_checked(len)?;
    Some(Parts {
        seed,
        count,
        table,
        pool,
    })
}

/// Reads the entry of this number in a table, and the next one.
#[inline(always)]
pub(in crate::made::zerotrie_index) fn entries_at(table: &[u8], number: usize) -> Option<(u64, u64)> {
    let (_, from) = table.split_at_checked(8 * number)?;
    let both = from.first_chunk::<16>()?;
    Some((eight_at(both, 0), eight_at(both, 8)))
}
