// Made from crates/zerotrie_tests/src/tests/well_formed.rt by rust/make: edit that.
//! Validation of bytes, and look-ups in malformed bytes.

use crate::rstd::prelude::*;
use super::*;

/// Bytes that are malformed in every kind.
const WRONG: &[&[u8]] = &[
    b"a",
    b"\x80\x80",
    b"\xC1a\x81",
    b"\xC2ba\x01\x80\x80",
    b"\xE1bab\0\x01\x80\x81",
    b"\x90",
    b"\xA1\xC3\xA1\xA5\x81",
    b"\xA0\x81",
    b"\xA1a\x81",
    b"\xA3\xC3\x81",
    b"\xC3abc\x02\x01\x80\x81\x82",
    b"\xEFbab\0\0\0\0\0\0\0\0\x01\x80\x81",
    b"\xE1\xDF\xDF\xDF\xDF\xDF\xDF\xDF\xDF\x5F",
    b"\x91\xEF\xEF\xEF\xEF\xEF\xEF\xEF\xEF\x70",
];

/// Whether the bytes are valid in each kind: simple, without case, hashed, extended.
fn verdicts(bytes: &[u8]) -> [bool; 4] {
    [
        ZeroTrieSimpleAscii::from_bytes(bytes).is_well_formed(),
        ZeroAsciiIgnoreCaseTrie::from_bytes(bytes).is_well_formed(),
        ZeroTriePerfectHash::from_bytes(bytes).is_well_formed(),
        ZeroTrieExtendedCapacity::from_bytes(bytes).is_well_formed(),
    ]
}

/// Whether they are valid as a `ZeroTrie` that is simple, hashed or extended.
fn verdicts_of_any(bytes: &[u8]) -> [bool; 3] {
    [
        ZeroTrie::of_kind::<Simple>(bytes).is_well_formed(),
        ZeroTrie::of_kind::<Hash>(bytes).is_well_formed(),
        ZeroTrie::of_kind::<Ext>(bytes).is_well_formed(),
    ]
}

/// Ends the test unless each type returns this for the bytes.
fn are_judged<H: Abort>(rt: &H, bytes: &[u8], answers: [bool; 4]) {
    let [simple, _, hashed, extended] = answers;
    same(rt, verdicts(bytes), answers);
    same(rt, verdicts_of_any(bytes), [simple, hashed, extended]);
}

const JUDGED: &[(&[u8], [bool; 4])] = &[
    (b"", [true; 4]),
    (b"abc\x80def\x81", [true; 4]),
    (LOCALES_TEXT, [true; 4]),
    (b"\xC2Bb\x01\x80\x81", [true, false, true, true]),
    (b"\xC2aB\x01\x80\x81", [false, true, false, false]),
    (
        b"\xA1\xC3\xC2\xA5\xB8\x01\x81\x82",
        [false, false, true, true],
    ),
    (
        b"\xD0abcdefghijklmnop\x01\x02\x03\x04\x05\x06\x07\x08\x09\x0A\x0B\x0C\x0D\x0E\x0F\
        \x80\x81\x82\x83\x84\x85\x86\x87\x88\x89\x8A\x8B\x8C\x8D\x8E\x8F",
        [true, true, false, false],
    ),
];

#[test]
fn verdicts_of_each_kind() {
    let rt = HostRuntime;
    for bytes in WRONG {
        are_judged(&rt, bytes, [false; 4]);
    }
    for (bytes, answers) in JUDGED {
        are_judged(&rt, bytes, *answers);
    }
}

#[test]
fn edges_of_a_table_in_their_places() {
    let rt = HostRuntime;
    let mut text = *LETTERS_TEXT;
    are_judged(&rt, &text, [false, false, true, true]);
    text.swap(18, 19);
    are_judged(&rt, &text, [false; 4]);
}

#[test]
fn hashed_tables_with_any_perfect_parameters() {
    let rt = HostRuntime;
    let mut bytes = text_of_all_bytes();
    are_judged(&rt, &bytes, [false, false, true, true]);
    bytes[2] = 7;
    bytes[3] = 0xFF;
    are_judged(&rt, &bytes, [false, false, true, true]);
    bytes.swap(259, 260);
    are_judged(&rt, &bytes, [false; 4]);
}

/// The result of a look-up in bytes, if they are valid.
fn value_in_ascii<K: AsciiKind>(bytes: &[u8], key: &[u8]) -> Option<Option<usize>> {
    let trie: AsciiTrie<K, &[u8]> = AsciiTrie::try_from_bytes(bytes).ok()?;
    Some(trie.get(key))
}

fn value_in_hashed<K: HashedKind>(bytes: &[u8], key: &[u8]) -> Option<Option<usize>> {
    let trie: HashedTrie<K, &[u8]> = HashedTrie::try_from_bytes(bytes).ok()?;
    Some(trie.get(key))
}

fn value_in_any<K: HasFlavor>(bytes: &[u8], key: &[u8]) -> Option<Option<usize>> {
    let trie = ZeroTrie::try_from_bytes::<K>(bytes).ok()?;
    Some(trie.get(key))
}

#[test]
fn bytes_are_taken_or_refused() {
    let rt = HostRuntime;
    same(
        &rt,
        value_in_ascii::<Simple>(b"abc\x85", b"abc"),
        Some(Some(5)),
    );
    same(
        &rt,
        value_in_hashed::<Ext>(b"abc\x85", b"abc"),
        Some(Some(5)),
    );
    same(&rt, value_in_any::<Hash>(b"abc\x85", b"abc"), Some(Some(5)));
    for wrong in WRONG {
        same(&rt, value_in_ascii::<Ignore>(wrong, b""), None);
        same(&rt, value_in_hashed::<Hash>(wrong, b""), None);
        same(&rt, value_in_any::<Ext>(wrong, b""), None);
    }
    let text =
        "the bytes are no trie of the kind: they were changed, cut or written as another kind";
    holds(&rt, is_written(rt.alloc(), &NotWellFormed, text));
}

/// The greatest result of the kinds for a key.
fn greatest_answer(bytes: &[u8], key: &[u8]) -> Option<usize> {
    let simple = ZeroTrieSimpleAscii::from_bytes(bytes).get(key);
    let caseless = ZeroAsciiIgnoreCaseTrie::from_bytes(bytes).get(key);
    let hashed = ZeroTriePerfectHash::from_bytes(bytes).get(key);
    let extended = ZeroTrieExtendedCapacity::from_bytes(bytes).get(key);
    simple.max(caseless).max(hashed).max(extended)
}

/// Results for such bytes are unspecified, but each look-up returns, for every key of up to two
/// bytes.
#[test]
fn look_ups_return_on_any_bytes() {
    let rt = HostRuntime;
    for bytes in WRONG {
        let mut most = greatest_answer(bytes, &[]);
        for first in 0..=255 {
            most = most.max(greatest_answer(bytes, &[first]));
            for second in 0..=255 {
                most = most.max(greatest_answer(bytes, &[first, second]));
            }
        }
        holds(&rt, most <= Some(usize::MAX));
    }
}
