// Made from crates/zerotrie_tests/src/tests/outer.rt by rust/make: edit that.
//! Tagged bytes and JSON.

use crate::rstd::prelude::*;
use super::*;
use crate::rstd::serde_json::Value;

/// Looks a key up in a trie that was tagged and read again, which never fails.
fn find_tagged(
    alloc: Global,
    pairs: &[(&[u8], usize)],
    word: &[u8],
) -> Result<Option<usize>, ZeroTrieBuildError> {
    let trie = ZeroTriePerfectHash::try_from_sorted_slice(alloc, pairs)?;
    let tagged = trie.to_tagged_bytes(alloc)?;
    match ZeroTriePerfectHash::try_from_tagged_bytes(tagged.as_slice()) {
        Ok(read) => Ok(read.get(word)),
        Err(_) => unreachable!(),
    }
}

#[test]
fn what_was_written_reads_back() {
    let rt = HostRuntime;
    let pairs: [(&[u8], usize); 2] = [(b"ad", 22), (b"adef", 33)];
    let found = find_tagged(rt.alloc(), &pairs, b"adef");
    same(&rt, found.ok(), Some(Some(33)));
}

/// The items of a trie that has 18 bytes, and its encoding.
const FEW: [(&str, usize); 3] = [("abc", 11), ("xyz", 22), ("axyb", 33)];

const FEW_TEXT: &[u8] = b"\xC2ax\x0A\xC2bx\x02c\x8Byb\x90\x11yz\x90\x06";

/// Returns whether tagged bytes are this tag, and then the text.
fn has_tag<E>(tagged: Result<Vec<u8>, E>, tag: u8) -> bool {
    match tagged {
        Ok(bytes) => bytes.as_slice().split_first() == Some((&tag, FEW_TEXT)),
        Err(_) => false,
    }
}

fn ascii_has_tag<K: AsciiKind>(alloc: Global, tag: u8) -> bool {
    match ascii_of::<K>(alloc, &FEW) {
        Ok(trie) => has_tag(trie.to_tagged_bytes(alloc), tag),
        Err(_) => false,
    }
}

fn hashed_has_tag<K: HashedKind>(alloc: Global, tag: u8) -> bool {
    match hashed_of::<K>(alloc, &FEW) {
        Ok(trie) => has_tag(trie.to_tagged_bytes(alloc), tag),
        Err(_) => false,
    }
}

fn any_has_tag(alloc: Global, tag: u8) -> bool {
    match any_of(alloc, &FEW) {
        Ok(trie) => has_tag(trie.to_tagged_bytes(alloc), tag),
        Err(_) => false,
    }
}

#[test]
fn tags_stand_in_front() {
    let rt = HostRuntime;
    let alloc = rt.alloc();
    holds(&rt, ascii_has_tag::<Simple>(alloc, 0));
    holds(&rt, ascii_has_tag::<Ignore>(alloc, 8));
    holds(&rt, hashed_has_tag::<Hash>(alloc, 3));
    holds(&rt, hashed_has_tag::<Ext>(alloc, 7));
    holds(&rt, any_has_tag(alloc, 0));
}

/// The result of a look-up in tagged bytes, if they are read.
fn value_in_ascii<K: AsciiKind>(tagged: &[u8], key: &[u8]) -> Option<Option<usize>> {
    let trie: AsciiTrie<K, &[u8]> = AsciiTrie::try_from_tagged_bytes(tagged).ok()?;
    Some(trie.get(key))
}

fn value_in_hashed<K: HashedKind>(tagged: &[u8], key: &[u8]) -> Option<Option<usize>> {
    let trie: HashedTrie<K, &[u8]> = HashedTrie::try_from_tagged_bytes(tagged).ok()?;
    Some(trie.get(key))
}

/// The kind of a `ZeroTrie`, too.
fn value_in_any(tagged: &[u8], key: &[u8]) -> Option<(ZeroTrieFlavor, Option<usize>)> {
    let trie = ZeroTrie::try_from_tagged_bytes(tagged).ok()?;
    Some((trie.flavor, trie.get(key)))
}

#[test]
fn tagged_bytes_are_read() {
    let rt = HostRuntime;
    same(
        &rt,
        value_in_ascii::<Simple>(b"\0a\x85", b"a"),
        Some(Some(5)),
    );
    same(
        &rt,
        value_in_ascii::<Ignore>(b"\x08a\x85", b"A"),
        Some(Some(5)),
    );
    same(
        &rt,
        value_in_hashed::<Hash>(b"\x03\xA1\xFF\x81", b"\xFF"),
        Some(Some(1)),
    );
    let extended = Some((ZeroTrieFlavor::ExtendedCapacity, Some(1)));
    same(&rt, value_in_any(b"\x07\x81", b""), extended);
}

/// The error of each type for tagged bytes: simple, without case, hashed, extended, of unknown
/// kind.
fn refusals_of(bytes: &[u8]) -> [Option<TagError>; 5] {
    [
        ZeroTrieSimpleAscii::try_from_tagged_bytes(bytes).err(),
        ZeroAsciiIgnoreCaseTrie::try_from_tagged_bytes(bytes).err(),
        ZeroTriePerfectHash::try_from_tagged_bytes(bytes).err(),
        ZeroTrieExtendedCapacity::try_from_tagged_bytes(bytes).err(),
        ZeroTrie::try_from_tagged_bytes(bytes).err(),
    ]
}

/// The error of reading tagged bytes. It is none if the tag is one of the type's.
fn refusal(is_read: bool) -> Option<TagError> {
    if is_read {
        None
    } else {
        Some(TagError::InvalidTag)
    }
}

/// The error that each type should return for this tag: each kind reads its own tag alone, and
/// `ZeroTrie` all but the one without case.
fn refusals_by_tag(tag: u8) -> [Option<TagError>; 5] {
    [
        refusal(tag == 0),
        refusal(tag == 8),
        refusal(tag == 3),
        refusal(tag == 7),
        refusal(tag == 0 || tag == 3 || tag == 7),
    ]
}

#[test]
fn other_tags_are_refused() {
    let rt = HostRuntime;
    for tag in 0..=255 {
        same(&rt, refusals_of(&[tag, 0x81]), refusals_by_tag(tag));
    }
    for why in refusals_of(b"") {
        same(&rt, why, Some(TagError::Empty));
    }
}

fn value_of(alloc: Global, text: &str) -> Result<Value, crate::rstd::serde_json::Error> {
    Value::from_str(alloc, text)
}

fn ascii_from_json<K: AsciiKind>(alloc: Global, value: &Value) -> Result<Vec<u8>, JsonError> {
    let trie: AsciiTrie<K, Vec<u8>> = AsciiTrie::try_from_json_value(alloc, value)?;
    Ok(trie.into_store())
}

fn hashed_from_json<K: HashedKind>(alloc: Global, value: &Value) -> Result<Vec<u8>, JsonError> {
    let trie: HashedTrie<K, Vec<u8>> = HashedTrie::try_from_json_value(alloc, value)?;
    Ok(trie.into_store())
}

/// Returns whether a `ZeroTrie` of ASCII keys is read, whose bytes are these.
fn is_any_from_json(alloc: Global, value: &Value, bytes: &[u8]) -> bool {
    match ZeroTrie::try_from_json_value(alloc, value) {
        Ok(any) => any.flavor == ZeroTrieFlavor::SimpleAscii && any.as_bytes() == bytes,
        Err(_) => false,
    }
}

/// Returns whether each kind reads the JSON value as this text.
fn is_read_as(alloc: Global, value: &Value, bytes: &[u8]) -> bool {
    let kinds = [
        is_bytes(ascii_from_json::<Simple>(alloc, value), bytes),
        is_bytes(ascii_from_json::<Ignore>(alloc, value), bytes),
        is_bytes(hashed_from_json::<Hash>(alloc, value), bytes),
        is_bytes(hashed_from_json::<Ext>(alloc, value), bytes),
        is_any_from_json(alloc, value, bytes),
    ];
    kinds == [true; 5]
}

fn reads(alloc: Global, row: &(&str, &[u8])) -> bool {
    match value_of(alloc, row.0) {
        Ok(value) => is_read_as(alloc, &value, row.1),
        Err(_) => false,
    }
}

const READ: &[(&str, &[u8])] = &[
    ("[]", b""),
    ("{}", b""),
    // If an object has a key twice, its last number counts.
    (r#"{"abc":7,"abcdef":1,"abc":0}"#, b"abc\x80def\x81"),
    (r#"[["adef",33],["ad",22]]"#, b"ad\x90\x06ef\x90\x11"),
    (r#"[[[97,100],22]]"#, b"ad\x90\x06"),
    (r#"[[[],1]]"#, b"\x81"),
    (
        r#"{"":18446744073709551615}"#,
        b"\x91\xEF\xEF\xEF\xEF\xEF\xEF\xEF\xEF\x6F",
    ),
];

#[test]
#[cfg_attr(not(target_pointer_width = "64"), ignore = "needs 64 bits")]
fn json_is_read() {
    let rt = HostRuntime;
    for row in READ {
        holds(&rt, reads(rt.alloc(), row));
    }
}

/// The kind of the `ZeroTrie` that is read, and the value of a key.
fn value_in_json(alloc: Global, json: &str, key: &[u8]) -> Option<(ZeroTrieFlavor, Option<usize>)> {
    let value = value_of(alloc, json).ok()?;
    match ZeroTrie::try_from_json_value(alloc, &value) {
        Ok(any) => Some((any.flavor, any.get(key))),
        Err(_) => None,
    }
}

/// Keys that are not ASCII make a trie of a hashed kind.
#[test]
fn json_of_high_keys_is_read() {
    let rt = HostRuntime;
    let found = value_in_json(rt.alloc(), "[[[255],3]]", b"\xFF");
    same(&rt, found, Some((ZeroTrieFlavor::PerfectHash, Some(3))));
}

fn ascii_json<K: AsciiKind>(alloc: Global, bytes: &[u8]) -> Result<String, JsonError> {
    let trie: AsciiTrie<K, &[u8]> = AsciiTrie::from_bytes(bytes);
    Ok(trie.to_json_value(alloc)?.to_string(alloc)?)
}

fn hashed_json<K: HashedKind>(alloc: Global, bytes: &[u8]) -> Result<String, JsonError> {
    let trie: HashedTrie<K, &[u8]> = HashedTrie::from_bytes(bytes);
    Ok(trie.to_json_value(alloc)?.to_string(alloc)?)
}

fn any_json(alloc: Global, bytes: &[u8]) -> Result<String, JsonError> {
    let trie = ZeroTrie::of_kind::<Simple>(bytes);
    Ok(trie.to_json_value(alloc)?.to_string(alloc)?)
}

/// Texts of all kinds, and their JSON.
const WRITTEN: &[(&[u8], &str)] = &[
    (b"", "{}"),
    (b"\x8B", r#"{"":11}"#),
    (b"abc\x80def\x81", r#"{"abc":0,"abcdef":1}"#),
    (FEW_TEXT, r#"{"abc":11,"axyb":33,"xyz":22}"#),
];

/// Returns whether each kind writes the bytes as this JSON.
fn writes(alloc: Global, row: &(&[u8], &str)) -> bool {
    let (bytes, json) = *row;
    let kinds = [
        is_text(any_json(alloc, bytes), json),
        is_text(ascii_json::<Simple>(alloc, bytes), json),
        is_text(ascii_json::<Ignore>(alloc, bytes), json),
        is_text(hashed_json::<Hash>(alloc, bytes), json),
        is_text(hashed_json::<Ext>(alloc, bytes), json),
    ];
    kinds == [true; 5]
}

#[test]
fn json_is_written() {
    let rt = HostRuntime;
    for row in WRITTEN {
        holds(&rt, writes(rt.alloc(), row));
    }
}

/// Keys of any bytes: text if all are UTF-8, else lists.
#[test]
fn json_of_any_keys() {
    let rt = HostRuntime;
    let json = hashed_json::<Hash>(rt.alloc(), b"\xA1\xC3\xC2\xA5\xB8\x01\x81\x82");
    holds(&rt, is_text(json, r#"{"å":1,"ø":2}"#));
}

fn json_of_pairs(alloc: Global, pairs: &[(&[u8], usize)]) -> Result<String, JsonError> {
    let trie = ZeroTriePerfectHash::try_from_sorted_slice(alloc, pairs)?;
    hashed_json::<Hash>(alloc, trie.as_bytes())
}

const HIGH: &[(&[u8], usize)] = &[(b"a", 1), (b"\xFF", 3)];

#[test]
fn json_of_keys_that_are_no_text() {
    let rt = HostRuntime;
    let alloc = rt.alloc();
    holds(
        &rt,
        is_text(json_of_pairs(alloc, HIGH), "[[[97],1],[[255],3]]"),
    );
    holds(
        &rt,
        is_text(json_of_pairs(alloc, &HIGH[1..]), "[[[255],3]]"),
    );
}

/// Returns whether a text begins and ends so.
fn is_text_from_to<E>(call: Result<String, E>, front: &str, end: &str) -> bool {
    match call {
        Ok(text) => text.as_str().starts_with(front) && text.as_str().ends_with(end),
        Err(_) => false,
    }
}

/// A hashed branch lists its edges in another order than JSON has them.
#[test]
fn json_of_a_hashed_branch() {
    let rt = HostRuntime;
    let json = hashed_json::<Ext>(rt.alloc(), LETTERS_TEXT);
    holds(&rt, is_text_from_to(json, r#"{"a":0,"b":1,"#, r#""p":15}"#));
}

/// Writes a trie as a program would, with one error for all calls.
fn written(alloc: Global) -> Result<Vec<u8>, Error> {
    let trie = ascii_of::<Simple>(alloc, &[("bar", 2), ("foo", 1)])?;
    Ok(trie.to_tagged_bytes(alloc)?)
}

/// Reads it again as a program would, with one error for all calls.
fn read_again(alloc: Global, tagged: &[u8]) -> Result<usize, Error> {
    let loaded = ZeroTrieSimpleAscii::load(tagged)?;
    let value = loaded.to_json_value(alloc)?;
    let again = ZeroTrieSimpleAscii::try_from_json_value(alloc, &value)?;
    Ok(again.to_btreemap(alloc)?.len())
}

#[test]
fn tagged_bytes_are_loaded() -> Result<(), Fail> {
    let rt = HostRuntime;
    let alloc = rt.alloc();
    let tagged = written(alloc)?;
    same(&rt, read_again(alloc, &tagged)?, 2);
    Ok(())
}

#[test]
fn other_bytes_are_not_loaded() {
    let rt = HostRuntime;
    let damaged = ZeroTrieSimpleAscii::load(b"\x00a");
    holds(&rt, is_refused(damaged, &LoadError::NotWellFormed));
    let foreign = ZeroTriePerfectHash::load(b"\x00a\x85");
    holds(
        &rt,
        is_refused(foreign, &LoadError::Tag(TagError::InvalidTag)),
    );
    holds(&rt, ZeroTrie::load(b"\x07a\x85").is_ok());
}
