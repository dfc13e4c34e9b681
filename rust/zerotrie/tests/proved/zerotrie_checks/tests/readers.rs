// Made from crates/zerotrie_checks/src/tests/readers.rt by rust/make: edit that.
//! Look-ups, cursors, prefixes, listings and validation.

use crate::rstd::prelude::*;
use super::*;
use crate::rstd::linked_list_allocator::LocalHeap;
use crate::zerotrie_core::{
    AsciiProbeResult, ByteProbeResult, CommonPrefixes, Ext, Hash, Ignore, ListError, Simple,
    SpanCursor, ZeroTrieIterator, ZeroTrieStream, get_counted, is_well_formed,
    is_well_formed_counted, longest_prefix, probe, step, take_value,
};

#[test]
fn a_value_on_the_way_is_no_answer() -> Result<(), Fail> {
    let rt = HostRuntime;
    let bytes = [
        0x8B, 0x61, 0x64, 0x90, 0x06, 0xC2, 0x65, 0x67, 0x03, 0x66, 0x90, 0x11, 0x68, 0x6B, 0x90,
        0x1C,
    ];
    let table: [(&[u8], Option<usize>, usize); 6] = [
        (b"", Some(11), 1),
        (b"ad", Some(22), 4),
        (b"adef", Some(33), 7),
        (b"x", None, 2),
        (b"adz", None, 5),
        (b"adeff", None, 7),
    ];
    for (key, value, nodes) in table {
        same(&rt, get_counted::<Simple>(&bytes, key), (value, nodes));
    }
    Ok(())
}

#[test]
fn letters_match_in_either_case() -> Result<(), Fail> {
    let rt = HostRuntime;
    let bytes = [
        0x80, 0x61, 0x42, 0x63, 0x81, 0xC4, 0x44, 0x65, 0x46, 0x67, 0x01, 0x02, 0x03, 0x82, 0x83,
        0x84, 0x68, 0x69, 0x85,
    ];
    let table: [(&[u8], Option<usize>, usize); 10] = [
        (b"", Some(0), 1),
        (b"abc", Some(1), 5),
        (b"AbCd", Some(2), 7),
        (b"aBcE", Some(3), 7),
        (b"ABCF", Some(4), 7),
        (b"ABCGHI", Some(5), 9),
        (b"aBcGh", None, 8),
        (b"aBcH", None, 6),
        (b"aBcC", None, 6),
        (b"@BC", None, 2),
    ];
    for (key, value, nodes) in table {
        same(&rt, get_counted::<Ignore>(&bytes, key), (value, nodes));
    }
    Ok(())
}

/// Bytes that are 32 apart, as letters of either case are, and are no letters.
#[test]
fn no_other_bytes_match() -> Result<(), Fail> {
    let rt = HostRuntime;
    let bytes = [0xC2, 0x40, 0x60, 0x02, 0x5B, 0x80, 0x81];
    let table: [(&[u8], Option<usize>, usize); 5] = [
        (b"@[", Some(0), 3),
        (b"`", Some(1), 2),
        (b"@{", None, 2),
        (b"`[", None, 2),
        (b"@", None, 2),
    ];
    for (key, value, nodes) in table {
        same(&rt, get_counted::<Ignore>(&bytes, key), (value, nodes));
    }
    Ok(())
}

#[test]
fn spans_match_whole() -> Result<(), Fail> {
    let rt = HostRuntime;
    let bytes = [0x61, 0x8A, 0x62, 0xA3, 0x81, 0x91, 0xA1, 0x84];
    let table: [(&[u8], Option<usize>, usize); 7] = [
        (b"a", Some(10), 2),
        (b"ab\x81\x91\xA1", Some(4), 5),
        (b"ab\x81\x91", None, 4),
        (b"ab\x81\x91\xA2", None, 4),
        (b"ab\x81\x91\xA1\xA1", None, 5),
        (b"ab", None, 4),
        (b"b", None, 1),
    ];
    for (key, value, nodes) in table {
        same(&rt, get_counted::<Hash>(&bytes, key), (value, nodes));
        same(&rt, get_counted::<Ext>(&bytes, key), (value, nodes));
    }
    Ok(())
}

#[test]
fn sixteen_edges_are_hashed() -> Result<(), Fail> {
    let rt = HostRuntime;
    let letters = [
        0xD0, 0, 0, 0, 0, 0, 0, 0, 0, 0, 0, 0, 0, 0, 0, 0, 0, 0, 0x70, 0x61, 0x62, 0x63, 0x64,
        0x65, 0x66, 0x67, 0x68, 0x69, 0x6A, 0x6B, 0x6C, 0x6D, 0x6E, 0x6F, 1, 2, 3, 4, 5, 6, 7, 8,
        9, 10, 11, 12, 13, 14, 15, 0x8F, 0x80, 0x81, 0x82, 0x83, 0x84, 0x85, 0x86, 0x87, 0x88,
        0x89, 0x8A, 0x8B, 0x8C, 0x8D, 0x8E,
    ];
    let moved = [
        0xD0, 1, 1, 0, 0, 0, 0, 0, 0, 0, 0, 0, 0, 0, 0, 0, 0, 0, 0x61, 0x71, 0x62, 0x63, 0x64,
        0x65, 0x66, 0x67, 0x68, 0x69, 0x6A, 0x6B, 0x6C, 0x6D, 0x6E, 0x6F, 1, 2, 3, 4, 5, 6, 7, 8,
        9, 10, 11, 12, 13, 14, 15, 0x80, 0x8F, 0x81, 0x82, 0x83, 0x84, 0x85, 0x86, 0x87, 0x88,
        0x89, 0x8A, 0x8B, 0x8C, 0x8D, 0x8E,
    ];
    for byte in 0..=255 {
        let place = (byte as usize)
            .checked_sub(0x61)
            .filter(|place| *place < 16);
        same(&rt, get_counted::<Hash>(&letters, &[byte]).0, place);
        same(&rt, get_counted::<Ext>(&letters, &[byte]).0, place);
        let value = match byte {
            0x61..=0x6F => Some(byte as usize - 0x61),
            0x71 => Some(15),
            _ => None,
        };
        same(&rt, get_counted::<Hash>(&moved, &[byte]).0, value);
    }
    Ok(())
}

#[test]
fn each_byte_is_an_edge() -> Result<(), Fail> {
    let rt = HostRuntime;
    let mut bytes = Vec::from_array(rt.alloc(), [0xE1, 0x60])?;
    bytes.resize(259, 0)?;
    for byte in 0..=255 {
        bytes.push(byte)?;
    }
    bytes.resize(770, 0)?;
    for byte in 1..=255 {
        bytes.push(byte)?;
    }
    bytes.resize(1281, 0x80)?;
    for byte in 0..=255 {
        same(&rt, get_counted::<Hash>(&bytes, &[byte]), (Some(0), 2));
        same(&rt, get_counted::<Hash>(&bytes, &[byte, byte]), (None, 2));
    }
    Ok(())
}

/// No answer is promised on such bytes, but there is one.
#[test]
fn returns_on_bytes_that_are_no_trie() {
    let rt = HostRuntime;
    let table: [&[u8]; 13] = [
        &[0x61],
        &[0x80, 0x80],
        &[0xC1, 0x61, 0x81],
        &[0xC2, 0x62, 0x61, 0x01, 0x80, 0x80],
        &[0xE1, 0x62, 0x61, 0x62, 0x00, 0x01, 0x80, 0x81],
        &[0x90],
        &[0xA1, 0xC3, 0xA1, 0xA5, 0x81],
        &[0xC0, 0x61],
        &[0xE1, 0xDF, 0xDF, 0xDF, 0xDF, 0xDF, 0xDF, 0xDF, 0xDF, 0x5F],
        &[0xC2, 0x61, 0x62, 0xFF, 0x80, 0x81],
        &[
            0xBF, 0xFF, 0xFF, 0xFF, 0xFF, 0xFF, 0xFF, 0xFF, 0xFF, 0x7F, 0x61,
        ],
        &[0xEF, 0x62, 0x61, 0x62, 0x80, 0x81],
        &[
            0xF0, 0x70, 0, 0, 0, 0, 0, 0, 0, 0, 0, 0, 0, 0, 0, 0, 0, 0, 0x61,
        ],
    ];
    for bytes in table {
        for key in [b"".as_slice(), b"a", b"b", b"ab", b"aa"] {
            let (_, nodes) = get_counted::<Simple>(bytes, key);
            assert!(nodes <= bytes.len());
            let (_, nodes) = get_counted::<Ignore>(bytes, key);
            assert!(nodes <= bytes.len());
            let (_, nodes) = get_counted::<Hash>(bytes, key);
            assert!(nodes <= bytes.len());
            let (_, nodes) = get_counted::<Ext>(bytes, key);
            assert!(nodes <= bytes.len());
        }
    }
}

#[test]
fn keys_that_a_text_begins_with() {
    let rt = HostRuntime;
    let bytes = b"\x80a\x81\xA2\xC3\xA9\x82";
    let mut keys = CommonPrefixes::new::<Hash>(bytes, b"a\xC3\xA9x");
    for found in [Some((0, 0)), Some((1, 1)), Some((3, 2)), None, None] {
        same(&rt, keys.next(), found);
    }
    same(&rt, longest_prefix::<Hash>(bytes, b"a\xC3"), Some((1, 1)));
    same(
        &rt,
        longest_prefix::<Ext>(bytes, b"a\xC3\xA9"),
        Some((3, 2)),
    );
    same(
        &rt,
        longest_prefix::<Ignore>(b"aB\x81", b"Abc"),
        Some((2, 1)),
    );
    same(&rt, longest_prefix::<Simple>(b"aB\x81", b"Abc"), None);
}

/// The prefix ends inside a span, or in another case than the stored key.
#[test]
fn pairs_behind_a_prefix() -> Result<(), Fail> {
    let rt = HostRuntime;
    let bytes = b"a\x81\xA2\xC3\xA9\xC2bc\x01\x82\x83";
    let mut pairs = ZeroTrieStream::with_prefix::<Hash>(rt.alloc(), bytes, b"a\xC3")?;
    for (key, value) in [(b"a\xC3\xA9b", 2), (b"a\xC3\xA9c", 3)] {
        assert!(pairs.advance()?);
        same(&rt, pairs.key(), key.as_slice());
        same(&rt, pairs.value(), value);
    }
    assert!(!pairs.advance()?);
    let mut stored = ZeroTrieStream::with_prefix::<Ignore>(rt.alloc(), b"aB\x81", b"Ab")?;
    assert!(stored.advance()?);
    same(&rt, stored.key(), b"aB".as_slice());
    let mut none = ZeroTrieStream::with_prefix::<Simple>(rt.alloc(), b"aB\x81", b"Ab")?;
    assert!(!none.advance()?);
    Ok(())
}

#[test]
fn edges_by_number() -> Result<(), Fail> {
    let rt = HostRuntime;
    let bytes = b"a\xC2bf\x0E\x90\x5F\xC2cd\x05xyz\x90\x06e\x92\x3Dg\x90\x1C";
    let mut trie = bytes.as_slice();
    let table = [
        (0, b'a', 1, None),
        (0, b'b', 2, Some(111)),
        (1, b'd', 2, None),
        (0, b'e', 1, Some(333)),
    ];
    for (index, byte, total_siblings, value) in table {
        let edge = AsciiProbeResult {
            byte,
            total_siblings,
        };
        same(&rt, probe::<Simple>(&mut trie, index), Some(edge));
        same(&rt, take_value(&mut trie), value);
    }
    same(&rt, take_value(&mut trie), None);
    same(&rt, probe::<Simple>(&mut trie, 0), None);
    Ok(())
}

#[test]
fn stored_bytes_in_any_case() -> Result<(), Fail> {
    let rt = HostRuntime;
    let bytes = b"\x80aBc\x81\xC4DeFg\x01\x02\x03\x82\x83\x84hi\x85";
    for typed in [b"ABCD", b"abcd", b"aBcD"] {
        let mut trie = bytes.as_slice();
        for (byte, stored) in typed.iter().zip(b"aBcD") {
            same(&rt, step::<Ignore>(&mut trie, *byte), Some(*stored));
        }
        same(&rt, take_value(&mut trie), Some(2));
    }
    Ok(())
}

#[test]
fn inside_a_span() -> Result<(), Fail> {
    let rt = HostRuntime;
    let bytes = [0xA2, 0xC3, 0xA9, 0xC2, 0xA5, 0xB8, 0x01, 0x81, 0x82];
    let fresh = SpanCursor::new(&bytes);
    same(&rt, fresh.rest(), Some(bytes.as_slice()));
    let mut cursor = fresh.clone();
    same(&rt, cursor.step::<Hash>(0xC3), Some(0xC3));
    same(&rt, cursor.rest(), None);
    assert!(!cursor.is_empty());
    same(&rt, cursor.take_value(), None);
    let mut gone = cursor.clone();
    same(&rt, gone.probe::<Hash>(1), None);
    assert!(gone.is_empty());
    same(&rt, cursor.step::<Hash>(0xA9), Some(0xA9));
    same(&rt, cursor.rest(), Some(&bytes[3..]));
    let edge = ByteProbeResult {
        byte: 0xB8,
        total_siblings: 2,
    };
    same(&rt, cursor.probe::<Ext>(1), Some(edge));
    same(&rt, cursor.take_value(), Some(2));
    assert!(cursor.is_empty());
    Ok(())
}

#[test]
fn in_front_of_a_span() {
    let rt = HostRuntime;
    let bytes = [0x61, 0xA2, 0xC3, 0xA9, 0x85];
    let mut cursor = SpanCursor::new(&bytes);
    same(&rt, cursor.step::<Hash>(0x61), Some(0x61));
    same(&rt, cursor.rest(), Some(&bytes[1..]));
}

/// Returns how many errors a listing over a heap has. It gives a beginning of the pairs, then
/// perhaps one error, and nothing more.
fn refusals<H: AllocGlobal + Abort>(rt: &H, heap: &LocalHeap, bytes: &[u8]) -> Result<usize, Fail> {
    let mut all = ZeroTrieIterator::new::<Hash>(rt.alloc(), bytes);
    let mut refused = 0_usize;
    for item in ZeroTrieIterator::new::<Hash>(heap, bytes) {
        same(rt, refused, 0);
        match item {
            Ok((key, value)) => {
                let (text, number) = all.next().ok_or("one too many")??;
                same(rt, key.as_slice(), text.as_slice());
                same(rt, value, number);
            }
            Err(why) => {
                assert!(why == ListError::OutOfMemory);
                refused = refused.saturating_add(1);
            }
        }
    }
    assert!(refused == 1 || all.next().is_none());
    Ok(refused)
}

/// Over heaps of rising size a listing is refused if memory runs out, until it gives all of the
/// pairs. All memory is given back.
#[test]
#[ignore = "needs a heap of limited size"]
fn every_size_of_heap() -> Result<(), Fail> {
    let rt = HostRuntime;
    let bytes = b"\x80abcdefghijklmnopqrstuvwxyz\xC2AB\x04\xA2\xC3\xA9\x81\xC2ab\x01\x82\x83";
    let mut complete = 0_usize;
    for size in 0..40_usize {
        let heap = LocalHeap::new(rt.alloc(), size * 8)?;
        let refused = refusals(&rt, &heap, bytes)?;
        same(&rt, heap.used(), 0);
        complete = complete.saturating_add(1 - refused.min(1));
    }
    assert!(complete > 5 && complete < 35);
    Ok(())
}

#[test]
fn fronts_and_counts() {
    let rt = HostRuntime;
    let keys: [u8; 8] = [0x61, 0x62, 0x63, 0x80, 0x64, 0x65, 0x66, 0x81];
    for len in 0..9 {
        let (front, _) = keys.split_at(len);
        let yes = len == 0 || len == 4 || len == 8;
        same(&rt, is_well_formed::<Simple>(front), yes);
        same(&rt, is_well_formed::<Ext>(front), yes);
    }
    let branch = [
        0x8B, 0x61, 0x64, 0x90, 0x06, 0xC2, 0x65, 0x67, 0x03, 0x66, 0x90, 0x11, 0x68, 0x6B, 0x90,
        0x1C,
    ];
    let branches = [
        0xC5, 0x41, 0x46, 0x49, 0x53, 0x55, 0x02, 0x04, 0x0A, 0x0C, 0x55, 0x80, 0x52, 0x81, 0xC2,
        0x52, 0x54, 0x01, 0x82, 0x83, 0x41, 0x84, 0xC2, 0x4B, 0x53, 0x01, 0x85, 0x86,
    ];
    same(&rt, is_well_formed_counted::<Simple>(&keys), (true, 1));
    same(&rt, is_well_formed_counted::<Simple>(&branch), (true, 2));
    same(&rt, is_well_formed_counted::<Simple>(&branches), (true, 3));
    same(&rt, is_well_formed_counted::<Hash>(&branches), (true, 3));
}

#[test]
fn a_long_key_takes_one_call() -> Result<(), Fail> {
    let rt = HostRuntime;
    let mut bytes = Vec::new(rt.alloc());
    bytes.resize(100_000, 0x61)?;
    bytes.push(0x80)?;
    same(&rt, is_well_formed_counted::<Simple>(&bytes), (true, 1));
    Ok(())
}
