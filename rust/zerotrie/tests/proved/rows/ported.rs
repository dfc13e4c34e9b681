// Made from tests/rows/ported.rt.in by rust/make: edit that.
//! The tests of the Rust crate zerotrie 0.2.5 that the library keeps, each once. Some are rows of proved tests, and all others are here:
//!
//! | Test of the crate | Test here |
//! |---|---|
//! | `test_swap_ranges` | `grows_at_the_front` of zerotrie_checks |
//! | `test_build_read_small` | `known_tables` of zerotrie_checks, `tables_of_letters` |
//! | `test_read`, `test_read_write`, `test_latent_values` | `latent_sums_of_each_length` and `latent_sums_of_values` of zerotrie_checks, `numbers_in_two_forms` |
//! | `test_roundtrip`, `test_extended_roundtrip` | `numbers_of_ones` |
//! | `test_max`, `text_extended_max` | `numbers_in_two_forms`, `latent_sums_of_values` |
//! | `test_ignore_case_coverage` | `texts_without_case` and `refused_beside_mixed_keys` of zerotrie_tests, `keys_in_both_cases` |
//! | `test_empty`, `test_everything` of the builder | `simple_texts` of zerotrie_tests, `small_maps` |
//! | `test_single_empty_value`, `test_single_byte_string`, `test_single_string`, `test_prefix_strings`, `test_single_byte_branch`, `test_multi_byte_branch`, `test_linear_varint_values`, `test_bug` | `small_maps` |
//! | `test_varint_branch` | `branches_of_52_letters` |
//! | `test_below_wide`, `test_at_wide`, `test_at_wide_plus` | `targets_of_about_256_bytes` |
//! | `test_basic`, `test_empty_input` of dense tables | `tables_have_their_parts` of zerotrie_tests, `absent_entries` of `records` |
//! | `test_dense_sparse_window_selection` | `tables_have_their_parts`, `full_window_as_one_trie` of `records` |
//! | `test_dense_suffix_count_with_low_frequency_suffixes` | `tables_have_their_parts`, `absent_entries` of `records` |
//! | `test_empty_dense_when_no_suffix_meets_threshold`, `test_lookup_semantics_remain_correct` | `more_tables` of `records` |
//! | `test_delimiter_validation` | `texts_and_delimiters_are_tested` of zerotrie_tests |
//!
//! The others need a random generator, data files or libraries that are not here, or test constants that the library does not have.

use crate::rstd::prelude::*;
use super::*;
use crate::zerotrie_all::bytes::plain_encode;
use crate::zerotrie_base::{PerfectByteHashMap, are_distinct};
use crate::zerotrie_core::{read_varint_meta2, read_varint_meta3, write_varint_meta2, write_varint_meta3};

/// Numbers with two bits of metadata before them, each with its bytes.
const META_2: &[(&[u8], usize)] = &[
    (b"\x00", 0),
    (b"\x0A", 10),
    (b"\x1F", 31),
    (b"\x20\x00", 32),
    (b"\x20\x01", 33),
    (b"\x20\x20", 64),
    (b"\x20\x7F", 159),
    (b"\x21\x00", 160),
    (b"\x21\x01", 161),
    (b"\x20\x80\x01", 4129),
    (b"\x20\x80\x7F", 4255),
    (b"\x20\x81\x00", 4256),
    (b"\x20\x81\x01", 4257),
    (b"\x20\x80\x80\x01", 528_417),
    (b"\x20\x80\x80\x80\x00", 67_637_280),
    (b"\x21\xDF\xDF\xDF\xDF\xDF\xDF\xDF\xDF\x5F", usize::MAX),
];

#[test]
#[cfg_attr(not(target_pointer_width = "64"), ignore = "needs 64 bits")]
fn numbers_in_two_forms() {
    let rt = HostRuntime;
    for (bytes, number) in META_2 {
        same(&rt, read_varint_meta2(bytes[0], &bytes[1..]), Some((*number, b"".as_slice())));
        same(&rt, write_varint_meta2(*number).as_slice(), *bytes);
    }
    same(&rt, read_varint_meta3(0, b""), Some((0, b"".as_slice())));
}

/// Numbers below 2^64 all of whose bits are 1.
#[test]
fn numbers_of_ones() {
    let rt = HostRuntime;
    for bits in 0..=64u32 {
        let number = usize::MAX.checked_shr(64 - bits).unwrap_or(0);
        let written = write_varint_meta2(number);
        let read = read_varint_meta2(written[0], &written.as_slice()[1..]);
        same(&rt, read, Some((number, b"".as_slice())));
        let written = write_varint_meta3(number);
        let read = read_varint_meta3(written[0], &written.as_slice()[1..]);
        same(&rt, read, Some((number, b"".as_slice())));
    }
}

const LETTERS_52: &[u8; 52] = b"ABCDEFGHIJKLMNOPQRSTUVWXYZabcdefghijklmnopqrstuvwxyz";

/// Keys of hash tables, and the tables.
const TABLES: &[(&[u8], &[u8])] = &[
    (b"def", b"\0\0\0\0fde"),
    (b"fi", b"\0\0\0fi"),
    (b"gh", b"\0\0\0hg"),
    (b"lm", b"\0\0\0lm"),
    (b"xy", b"\0\0\0xy"),
    (
        LETTERS_52,
        b"\0\0\0\0\0\0\0\0\0\0\x06\x0A\x0C\x10\x04\x04\x04\x04\x04\x04\x08\x04\x04\x04\x10\x10\x10\
        \x10\x10\0\0\0\0\0\0\0\0\0\0\0\0\0\0\0\0\0\0\0\0\x01\x02\0\x07\
        hijklmnopuvwDEFqrABCxyzsHIJGPQRSTUVWXYZKLMNOgabctdfe",
    ),
];

#[test]
fn tables_of_letters() -> Result<(), Fail> {
    let rt = HostRuntime;
    for (keys, bytes) in TABLES {
        holds(&rt, are_distinct(keys));
        let table = PerfectByteHashMap::try_new(rt.alloc(), keys)?;
        same(&rt, table.as_bytes(), *bytes);
        same(&rt, table.keys(), &bytes[1 + keys.len()..]);
        for byte in 0..=255u8 {
            same(&rt, table.get(byte), table.keys().iter().position(|key| *key == byte));
        }
    }
    Ok(())
}

/// Their encodings, each with its number as its value: by a sorted table, and by a hashed one.
const LETTERS_52_SORTED: &[u8; 193] = b"\xE0\x14ABCDEFGHIJKLMNOPQRSTUVWXYZabcdefghijklmnopqrstuvwxyz\
    \x01\x02\x03\x04\x05\x06\x07\x08\x09\x0A\x0B\x0C\x0D\x0E\x0F\
    \x10\x12\x14\x16\x18\x1A\x1C\x1E\x20\x22\x24\x26\x28\x2A\x2C\x2E\x30\x32\
    \x34\x36\x38\x3A\x3C\x3E\x40\x42\x44\x46\x48\x4A\x4C\x4E\x50\x52\x54\x56\
    \x80\x81\x82\x83\x84\x85\x86\x87\x88\x89\x8A\x8B\x8C\x8D\x8E\x8F\
    \x90\x00\x90\x01\x90\x02\x90\x03\x90\x04\x90\x05\x90\x06\x90\x07\x90\x08\x90\x09\x90\x0A\x90\x0B\
    \x90\x0C\x90\x0D\x90\x0E\x90\x0F\x90\x10\x90\x11\x90\x12\x90\x13\x90\x14\x90\x15\x90\x16\x90\x17\
    \x90\x18\x90\x19\x90\x1A\x90\x1B\x90\x1C\x90\x1D\x90\x1E\x90\x1F\x90\x20\x90\x21\x90\x22\x90\x23";

const LETTERS_52_HASHED: &[u8; 246] = b"\xE0\x14\
    \0\0\0\0\0\0\0\0\0\0\x06\x0A\x0C\x10\x04\x04\x04\x04\x04\x04\x08\x04\x04\x04\x10\x10\x10\
    \x10\x10\0\0\0\0\0\0\0\0\0\0\0\0\0\0\0\0\0\0\0\0\x01\x02\0\x07\
    hijklmnopuvwDEFqrABCxyzsHIJGPQRSTUVWXYZKLMNOgabctdfe\
    \x02\x04\x06\x08\x0A\x0C\x0E\x10\x12\x14\x16\x18\x19\x1A\x1B\x1D\x1F\x20\x21\x22\x24\x26\x28\x2A\
    \x2B\x2C\x2D\x2E\x2F\x31\x33\x35\x37\x39\x3B\x3D\x3F\x41\x43\x44\x45\x46\x47\x48\x4A\x4C\x4E\x50\
    \x52\x54\x56\
    \x90\x11\x90\x12\x90\x13\x90\x14\x90\x15\x90\x16\x90\x17\x90\x18\x90\x19\x90\x1E\x90\x1F\x90\x20\
    \x83\x84\x85\x90\x1A\x90\x1B\x80\x81\x82\x90\x21\x90\x22\x90\x23\x90\x1C\x87\x88\x89\x86\x8F\
    \x90\x00\x90\x01\x90\x02\x90\x03\x90\x04\x90\x05\x90\x06\x90\x07\x90\x08\x90\x09\
    \x8A\x8B\x8C\x8D\x8E\x90\x10\x90\x0A\x90\x0B\x90\x0C\x90\x1D\x90\x0D\x90\x0F\x90\x0E";

/// Keys that no map here has.
const ABSENT: &[&str] = &["a9PS", "ahsY", "ahBO", "a8IN", "xk8o", "xv1l", "xI2S", "618y", "d6My", "uszy"];

/// Returns whether the sorted kind has this encoding of the items by each way to build, finds them and lists them in order.
fn is_sorted_text(alloc: Global, items: &[(&[u8], usize)], text: &[u8]) -> Result<bool, Fail> {
    let trie = ZeroTrieSimpleAscii::try_from_sorted_slice(alloc, items)?;
    let array = ZeroTrieSimpleAscii::try_from_sorted_slice_with_const_builder(alloc, items)?;
    let mut is_right = trie.as_bytes() == text && array.as_bytes() == text && is_bytes(plain_encode(alloc, items), text);
    for key in ABSENT {
        is_right &= trie.get_str(key).is_none();
    }
    let mut left = items;
    for item in trie.iter(alloc) {
        let (key, value) = item?;
        let Some(((first, number), more)) = left.split_first() else {
            return Ok(false);
        };
        is_right &= key.as_bytes() == *first && value == *number && trie.get(first) == Some(value);
        left = more;
    }
    Ok(is_right && left.is_empty())
}

/// Returns whether the hashed kind has this encoding of the items, finds them, and lists them and nothing more.
fn is_hashed_text(alloc: Global, items: &[(&[u8], usize)], text: &[u8]) -> Result<bool, Fail> {
    let trie = ZeroTriePerfectHash::try_from_sorted_slice(alloc, items)?;
    let mut is_right = trie.as_bytes() == text && trie.count() == items.len();
    for key in ABSENT {
        is_right &= trie.get_str(key).is_none();
    }
    let map = trie.to_btreemap(alloc)?;
    for (key, value) in items {
        is_right &= trie.get(key) == Some(*value) && map.get(*key) == Some(value);
    }
    Ok(is_right && map.len() == items.len())
}

#[test]
fn branches_of_52_letters() -> Result<(), Fail> {
    let rt = HostRuntime;
    let alloc = rt.alloc();
    let mut items = keys_of(alloc, LETTERS_52, 1)?;
    for (number, item) in items.as_mut_slice().iter_mut().enumerate() {
        item.1 = number;
    }
    holds(&rt, is_sorted_text(alloc, items.as_slice(), LETTERS_52_SORTED)?);
    holds(&rt, is_hashed_text(alloc, items.as_slice(), LETTERS_52_HASHED)?);
    Ok(())
}

/// The alphabet twice, so that a part of it is the alphabet from any letter on.
const ALPHABETS: &[u8; 52] = b"abcdefghijklmnopqrstuvwxyzabcdefghijklmnopqrstuvwxyz";

/// Returns whether nine alphabets, each from another letter on, and a tenth of this length have an encoding that begins with these bytes.
fn is_encoded(alloc: Global, last: usize, front: &[u8]) -> Result<bool, Fail> {
    let mut items: Vec<(&[u8], usize)> = Vec::new(alloc);
    let mut text = Vec::from_slice(alloc, front)?;
    for number in 0..10usize {
        let len = if number == 9 { last } else { 26 };
        let key = &ALPHABETS[number..number + len];
        items.push((key, number + 1))?;
        text.extend_from_slice(&key[1..])?;
        text.push(0x81 + number as u8)?;
    }
    is_sorted_text(alloc, items.as_slice(), text.as_slice())
}

/// The encodings have 275, 286 and 287 bytes.
#[test]
fn targets_of_about_256_bytes() -> Result<(), Fail> {
    let rt = HostRuntime;
    let alloc = rt.alloc();
    let narrow = b"\xCAabcdefghij\x1A\x34\x4E\x68\x82\x9C\xB6\xD0\xEA";
    let wide = b"\xE1\x6Aabcdefghij\0\0\0\0\0\0\0\0\0\x1A\x34\x4E\x68\x82\x9C\xB6\xD0\xEA";
    holds(&rt, is_encoded(alloc, 21, narrow)?);
    holds(&rt, is_encoded(alloc, 22, wide)?);
    holds(&rt, is_encoded(alloc, 23, wide)?);
    Ok(())
}

/// Items, keys beside them that are absent, and the encoding.
type Row = (&'static [(&'static [u8], usize)], &'static [&'static [u8]], &'static [u8]);

const SMALL: &[Row] = &[
    (&[], &[b""], b""),
    (&[(b"", 10)], &[b"x"], b"\x8A"),
    (&[(b"x", 10)], &[b"", b"xy"], b"x\x8A"),
    (&[(b"xyz", 10)], &[b"", b"x", b"xy", b"xyzz"], b"xyz\x8A"),
    (&[(b"x", 0), (b"xy", 1)], &[b"", b"xyz"], b"x\x80y\x81"),
    (&[(b"x", 0), (b"y", 1)], &[b"", b"xy"], b"\xC2xy\x01\x80\x81"),
    (&[(b"axb", 0), (b"ayc", 1)], &[b"", b"a", b"ax", b"ay"], b"a\xC2xy\x02b\x80c\x81"),
    (&[(b"", 100), (b"x", 500), (b"xyz", 5000)], &[b"xy", b"xz", b"xyzz"], b"\x90\x54x\x93\x64yz\x90\x96\x78"),
    (&[(b"abc", 100), (b"abcd", 500), (b"abcde", 5000)], &[b"ab", b"abd", b"abCD"], b"abc\x90\x54d\x93\x64e\x90\x96\x78"),
    (
        &[
            (b"", 0),
            (b"axb", 100),
            (b"ayc", 2),
            (b"azd", 3),
            (b"bxe", 4),
            (b"bxefg", 500),
            (b"bxefh", 6),
            (b"bxei", 7),
            (b"bxeikl", 8),
        ],
        &[b"a", b"ax", b"ay"],
        b"\x80\xC2ab\x0D\xC3xyz\x03\x05b\x90\x54c\x82d\x83xe\x84\xC2fi\x07\xC2gh\x02\x93\x64\x86\x87kl\x88",
    ),
];

#[test]
fn small_maps() -> Result<(), Fail> {
    let rt = HostRuntime;
    let alloc = rt.alloc();
    for (items, absent, text) in SMALL {
        holds(&rt, is_sorted_text(alloc, items, text)?);
        holds(&rt, is_hashed_text(alloc, items, text)?);
        for key in *absent {
            same(&rt, ZeroTrieSimpleAscii::from_bytes(*text).get(key), None);
            same(&rt, ZeroTriePerfectHash::from_bytes(*text).get(key), None);
        }
    }
    Ok(())
}

#[test]
fn keys_in_both_cases() -> Result<(), Fail> {
    let rt = HostRuntime;
    let alloc = rt.alloc();
    let trie = ascii_of::<Ignore>(alloc, &MIXED)?;
    same(&rt, trie.as_bytes(), MIXED_TEXT);
    for (key, value) in MIXED {
        let mut other = Vec::from_slice(alloc, key.as_bytes())?;
        other.as_mut_slice().make_ascii_uppercase();
        same(&rt, trie.get(other.as_slice()), Some(value));
        other.as_mut_slice().make_ascii_lowercase();
        same(&rt, trie.get(other.as_slice()), Some(value));
    }
    Ok(())
}
