// Made from tests/rows/records.rt.in by rust/make: edit that.
//! Dense tables and their records: entries that are absent, more tables of the Rust crate, and records of other lengths than theirs.

use crate::rstd::prelude::*;
use super::*;
use crate::zerotrie_all::dense::{RecordError, ZeroAsciiDenseSparse2dTrieBorrowed, ZeroAsciiDenseSparse2dTrieOwned};

fn table_of(alloc: Global, entries: &[Entries<'_>]) -> Result<ZeroAsciiDenseSparse2dTrieOwned, ZeroTrieBuildError> {
    let rows = rows_of(alloc, entries)?;
    ZeroAsciiDenseSparse2dTrieOwned::try_from_btree_map_str(alloc, &rows, b'/')
}

/// Two rows that are dense, and one that is sparse. Their record has 77 bytes.
const SHORT: &[Entries<'static>] = &[
    ("aaa", &[("BBB", 1), ("CCC", 2)]),
    ("ddd", &[("BBB", 3), ("EEE", 4)]),
    ("fff", &[("BBB", 5)]),
];

/// Three rows that are dense, and one that is sparse.
const LOCALE_ROWS: &[Entries<'static>] = &[
    ("ar", &[("FR", 0), ("IR", 1), ("SA", 2), ("UK", 3), ("US", 4)]),
    ("en", &[("AU", 5), ("FR", 6), ("UK", 7), ("US", 8)]),
    ("fr", &[("FR", 9), ("SA", 10), ("UK", 11), ("US", 12)]),
    ("it", &[("IT", 13)]),
];

/// Rows that are sparse, with values that are far from all others.
const RARE: &[Entries<'static>] = &[
    ("de", &[("AT", 8), ("CH", 9), ("DE", 7), ("rare3", 102)]),
    ("en", &[("CA", 3), ("GB", 2), ("US", 1), ("rare1", 100)]),
    ("es", &[("ES", 104), ("rare4", 103)]),
    ("fr", &[("BE", 6), ("CA", 5), ("FR", 4), ("rare2", 101)]),
];

/// Entries, and pairs of texts without a value among them.
const ABSENT: &[(&[Entries<'static>], &[(&str, &str)])] = &[
    (SHORT, &[("aaa", "EEE"), ("ddd", "CCC"), ("fff", "CCC"), ("aaa", ""), ("", "BBB"), ("aa", "BBB"), ("aaa", "BB")]),
    (LOCALE_ROWS, &[("ar", "IT"), ("en", "ZA"), ("it", "FR"), ("zh", "UK")]),
    (RARE, &[("en", "FR"), ("nonexistent", "US")]),
];

/// Returns whether a table finds all entries, and none of the absent pairs.
fn finds(table: &ZeroAsciiDenseSparse2dTrieBorrowed<'_>, entries: &[Entries<'_>], absent: &[(&str, &str)]) -> bool {
    let mut is_right = true;
    for (prefix, row) in entries {
        for (suffix, value) in *row {
            is_right &= table.get(prefix, suffix) == Some(*value);
        }
    }
    for (prefix, suffix) in absent {
        is_right &= table.get(prefix, suffix).is_none();
    }
    is_right
}

#[test]
fn absent_entries() -> Result<(), Fail> {
    let rt = HostRuntime;
    let alloc = rt.alloc();
    for (entries, absent) in ABSENT {
        let table = table_of(alloc, entries)?;
        holds(&rt, finds(&table.as_borrowed(), entries, absent));
        let record = table.as_borrowed().to_record_bytes(alloc)?;
        let read = ZeroAsciiDenseSparse2dTrieBorrowed::try_from_record_bytes(record.as_slice())?;
        holds(&rt, finds(&read, entries, absent));
    }
    Ok(())
}

/// Entries, pairs without a value, the number of suffixes, the primary trie, the trie of the suffixes, and the cells.
type Row = (&'static [Entries<'static>], &'static [(&'static str, &'static str)], u16, &'static [u8], &'static [u8], &'static [u16]);

const MORE: &[Row] = &[
    (
        &[("a", &[("s1", 1)]), ("b", &[("s2", 2)]), ("c", &[("s3", 3)])],
        &[("a", "s2"), ("b", "s3")],
        3,
        b"\xC3abc\x04\x08/s1\x81/s2\x82/s3\x83",
        b"s\xC3123\x01\x02\x80\x81\x82",
        &[],
    ),
    (
        &[
            ("p0", &[("common", 100), ("rare", 999)]),
            ("p1", &[("common", 101)]),
            ("p2", &[("common", 102)]),
            ("p3", &[("common", 103)]),
            ("p4", &[("common", 104)]),
            ("p5", &[("common", 105)]),
            ("p6", &[("common", 106)]),
            ("p7", &[("common", 107)]),
            ("p8", &[("common", 108)]),
            ("p9", &[("common", 109)]),
        ],
        &[("p1", "rare"), ("p99", "common")],
        2,
        b"p\xCA0123456789\x04\x08\x0C\x10\x14\x18\x1C\x20\x24\
        \x80/\x90\x54\x81/\x90\x55\x82/\x90\x56\x83/\x90\x57\x84/\x90\x58\
        \x85/\x90\x59\x86/\x90\x5A\x87/\x90\x5B\x88/\x90\x5C\x89/\x90\x5D",
        b"\xC2cr\x06ommon\x80are\x81",
        &[0, 899, 0, 65535, 0, 65535, 0, 65535, 0, 65535, 0, 65535, 0, 65535, 0, 65535, 0, 65535, 0, 65535],
    ),
];

/// The record of these parts.
fn record_of(alloc: Global, suffixes: u16, primary: &[u8], columns: &[u8], cells: &[u16]) -> Result<Vec<u8>, Fail> {
    let mut record = Vec::from_slice(alloc, &suffixes.to_le_bytes())?;
    record.push(b'/')?;
    for len in [primary.len(), columns.len(), cells.len()] {
        record.extend_from_slice(&(len as u64).to_le_bytes())?;
    }
    record.extend_from_slice(primary)?;
    record.extend_from_slice(columns)?;
    for cell in cells {
        record.extend_from_slice(&cell.to_le_bytes())?;
    }
    Ok(record)
}

#[test]
fn more_tables() -> Result<(), Fail> {
    let rt = HostRuntime;
    let alloc = rt.alloc();
    for (entries, absent, suffixes, primary, columns, cells) in MORE {
        let table = table_of(alloc, entries)?;
        holds(&rt, finds(&table.as_borrowed(), entries, absent));
        let record = record_of(alloc, *suffixes, primary, columns, cells)?;
        same(&rt, table.as_borrowed().to_record_bytes(alloc)?.as_slice(), record.as_slice());
    }
    Ok(())
}

/// A row whose values are just within and beyond one window takes 60 bytes as one trie.
const WINDOW: &[(&str, usize)] = &[
    ("p/a", 50),
    ("p/b", 52),
    ("p/c", 53),
    ("p/c2", 53),
    ("p/c3", 53),
    ("p/d", 65_582),
    ("p/e", 65_583),
    ("p/f", 65_584),
    ("p/g", 65_585),
    ("p/h", 65_586),
    ("p/high", 65_685),
    ("p/low", 0),
    ("p/low2", 0),
];

#[test]
fn full_window_as_one_trie() -> Result<(), Fail> {
    let rt = HostRuntime;
    same(&rt, ascii_of::<Simple>(rt.alloc(), WINDOW)?.byte_len(), 60);
    Ok(())
}

fn refusal_of(record: &[u8]) -> Option<RecordError> {
    ZeroAsciiDenseSparse2dTrieBorrowed::try_from_record_bytes(record).err()
}

#[test]
fn records_of_other_lengths() -> Result<(), Fail> {
    let rt = HostRuntime;
    let alloc = rt.alloc();
    let table = table_of(alloc, SHORT)?;
    let mut record = table.as_borrowed().to_record_bytes(alloc)?;
    same(&rt, record.len(), 77);
    same(&rt, &record.as_slice()[..11], b"\x03\0/\x17\0\0\0\0\0\0\0".as_slice());
    for len in 0..77 {
        same(&rt, refusal_of(&record.as_slice()[..len]), Some(RecordError::Truncated));
    }
    record.push(0)?;
    same(&rt, refusal_of(record.as_slice()), Some(RecordError::TrailingBytes));
    Ok(())
}

/// Each of the three lengths in a record may be any number below 2^64. Their sum is not cut.
#[test]
fn records_with_the_greatest_length() -> Result<(), Fail> {
    let rt = HostRuntime;
    let alloc = rt.alloc();
    let table = table_of(alloc, SHORT)?;
    let record = table.as_borrowed().to_record_bytes(alloc)?;
    for at in [3, 11, 19] {
        for len in [u64::MAX, u64::MAX / 2 + 1, u64::MAX - 26] {
            let mut changed = Vec::from_slice(alloc, record.as_slice())?;
            changed.as_mut_slice()[at..at + 8].copy_from_slice(&len.to_le_bytes());
            same(&rt, refusal_of(changed.as_slice()), Some(RecordError::Truncated));
        }
    }
    Ok(())
}

/// The cells of the second row are cut off, or all of them. The record is read, and look-ups return.
#[test]
fn records_with_fewer_cells() -> Result<(), Fail> {
    let rt = HostRuntime;
    let alloc = rt.alloc();
    let table = table_of(alloc, SHORT)?;
    let record = table.as_borrowed().to_record_bytes(alloc)?;
    for cells in 0..6usize {
        let mut short = Vec::from_slice(alloc, record.as_slice())?;
        short.truncate(65 + 2 * cells);
        short.as_mut_slice()[19..27].copy_from_slice(&(cells as u64).to_le_bytes());
        let read = ZeroAsciiDenseSparse2dTrieBorrowed::try_from_record_bytes(short.as_slice())?;
        for (row, prefix) in ["aaa", "ddd", "fff"].iter().enumerate() {
            for (column, suffix) in ["BBB", "CCC", "EEE", "", "F"].iter().enumerate() {
                let given = read.get(prefix, suffix);
                if row == 2 || 3 * row + column < cells && column < 3 {
                    same(&rt, given, table.as_borrowed().get(prefix, suffix));
                }
            }
        }
    }
    Ok(())
}
