// Made from tests/rows/uses.rt.in by rust/make: edit that.
//! The functions to copy.

use crate::rstd::prelude::*;
use super::*;
use crate::zerotrie_all::CursorAnswer::{Probed, Stepped, Taken};
use crate::zerotrie_all::CursorOp::{Probe, Step, Take};
use crate::zerotrie_uses::*;

/// Pairs whose keys ascend.
const PAIRS: [(&[u8], usize); 2] = [(b"Accept", 1), (b"Content-Type", 2)];

/// Whether a look-up that may be refused gave this answer.
fn is_value<T: PartialEq, E>(call: Result<Option<T>, E>, value: Option<T>) -> bool {
    match call {
        Ok(found) => found == value,
        Err(_) => false,
    }
}

#[test]
fn keys_are_found() {
    let rt = HostRuntime;
    let alloc = rt.alloc();
    holds(
        &rt,
        is_value(find_header(alloc, &PAIRS, b"ACCEPT"), Some(1)),
    );
    holds(&rt, is_value(find_header(alloc, &PAIRS, b"Content"), None));
    holds(
        &rt,
        is_value(find_keyword(alloc, &PAIRS, b"Accept"), Some(1)),
    );
    holds(&rt, is_value(find_keyword(alloc, &PAIRS, b"ACCEPT"), None));
    holds(&rt, is_value(second_of_three(alloc), Some(2)));
}

#[test]
fn keywords_are_recognised() {
    let rt = HostRuntime;
    let keywords: [(&[u8], usize); 3] = [(b"else", 2), (b"if", 0), (b"let", 1)];
    holds(
        &rt,
        is_value(record_of(&keywords, &[10, 20, 30], b"let"), Some(20)),
    );
    holds(
        &rt,
        is_value(record_of(&keywords, &[10, 20, 30], b"le"), None),
    );
}

/// Words of any bytes.
const WORDS: [(&[u8], usize); 2] = [(b"a", 1), (b"\xFF", 3)];

#[test]
fn what_was_written_is_read_again() {
    let rt = HostRuntime;
    let alloc = rt.alloc();
    holds(
        &rt,
        is_value(find_in_json(alloc, &PAIRS, b"Accept"), Some(1)),
    );
    holds(
        &rt,
        is_value(find_in_json_of_any(alloc, &WORDS, b"\xFF"), Some(3)),
    );
    holds(&rt, is_value(find_word(alloc, &WORDS, b"\xFF"), Some(3)));
}

#[test]
fn pairs_are_given_away() -> Result<(), Fail> {
    let rt = HostRuntime;
    let alloc = rt.alloc();
    let owned = crate::rstd::vec_in![in alloc; (crate::rstd::string::from_str(alloc, "å")?, 7)]?;
    holds(
        &rt,
        is_value(find_owned(alloc, owned, "å".as_bytes()), Some(7)),
    );
    Ok(())
}

/// Whether the pairs are listed with this one.
fn lists(alloc: Global, key: &str, value: usize) -> bool {
    match listed_again(alloc, &PAIRS) {
        Ok(map) => map.get(key) == Some(&value),
        Err(_) => false,
    }
}

/// Whether a walk over the pairs gives the answers.
fn is_walk(alloc: Global, calls: &[CursorOp], answers: &[CursorAnswer]) -> bool {
    match walk_over(alloc, &PAIRS, calls) {
        Ok(given) => given.as_slice() == answers,
        Err(_) => false,
    }
}

#[test]
fn pairs_are_listed() {
    let rt = HostRuntime;
    let alloc = rt.alloc();
    holds(&rt, lists(alloc, "Content-Type", 2));
    let calls = [Probe(1), Step(b'o'), Take];
    let answers = [Probed(Some((b'C', 2))), Stepped(Some(b'o')), Taken(None)];
    holds(&rt, is_walk(alloc, &calls, &answers));
}

#[test]
fn a_record_is_asked() -> Result<(), Fail> {
    let rt = HostRuntime;
    let alloc = rt.alloc();
    let rows = rows_of(alloc, &[("en", &[("US", 8)])])?;
    holds(
        &rt,
        is_value(entry_in_record(alloc, &rows, "en", "US"), Some(8)),
    );
    Ok(())
}

#[test]
fn bytes_are_asked() {
    let rt = HostRuntime;
    holds(
        &rt,
        is_value(find_in_bytes(b"in\x83to\x84", b"into"), Some(4)),
    );
    holds(&rt, find_in_bytes(b"into", b"into").is_err());
    let trie = ZeroTrieSimpleAscii::from_bytes(b"in\x83to\x84");
    same(&rt, find_written(&trie, "into"), Some(4));
    same(&rt, find_written(&trie, "intø"), None);
}

/// The value of a key in the trie of what comes after a prefix, if there is one.
fn value_after<S: TrieStore>(
    trie: &ZeroTriePerfectHash<S>,
    prefix: &[u8],
    key: &[u8],
) -> Option<Option<usize>> {
    Some(suffixes_of(trie, prefix)?.get(key))
}

/// A prefix that ends before a span, and one inside it.
#[test]
fn prefixes_are_gone_down() -> Result<(), Fail> {
    let rt = HostRuntime;
    let trie = hashed_of::<Hash>(rt.alloc(), &[("aå", 5), ("b", 6)])?;
    same(&rt, value_after(&trie, b"a", "å".as_bytes()), Some(Some(5)));
    same(&rt, value_after(&trie, b"a\xC3", b""), None);
    same(&rt, find_behind(&trie, b"a\xC3", b"\xA5"), Some(5));
    Ok(())
}

/// The trie of locales with their fallbacks.
fn locales(alloc: Global) -> Result<ZeroTrieSimpleAscii<Vec<u8>>, ZeroTrieBuildError> {
    ascii_of::<Simple>(
        alloc,
        &[
            ("", 0),
            ("en", 1),
            ("en-Latn", 2),
            ("en-Latn-US", 3),
            ("fi", 4),
            ("ko", 5),
        ],
    )
}

/// Names, and the value of the locale that they fall back to.
const FALLBACKS: &[(&[u8], usize)] = &[
    (b"en-Latn-US", 3),
    (b"en-Latn-GB", 2),
    (b"en-Latin", 1),
    (b"en-GB", 1),
    (b"english", 0),
    (b"fil-PH", 0),
    (b"fi-FI", 4),
    (b"kok-IN", 0),
    (b"", 0),
];

fn fallback_of<S: TrieStore>(trie: &ZeroTrieSimpleAscii<S>, name: &[u8]) -> Option<usize> {
    fall_back(trie, name)
}

#[test]
fn names_fall_back() -> Result<(), Fail> {
    let rt = HostRuntime;
    let trie = locales(rt.alloc())?;
    for (name, value) in FALLBACKS {
        same(&rt, fallback_of(&trie, name), Some(*value));
    }
    let bare = ZeroTrieSimpleAscii::from_bytes(b"fi\x84");
    same(&rt, fallback_of(&bare, b"fil-PH"), None);
    Ok(())
}

#[test]
fn names_of_any_bytes_fall_back() -> Result<(), Fail> {
    let rt = HostRuntime;
    let trie = hashed_of::<Hash>(rt.alloc(), &[("å", 1), ("åøb", 2)])?;
    same(&rt, fall_back_in_hashed(&trie, "å-ø".as_bytes()), Some(1));
    same(&rt, fall_back_in_hashed(&trie, "åø-b".as_bytes()), None);
    Ok(())
}

#[test]
fn texts_begin_with_keys() -> Result<(), Fail> {
    let rt = HostRuntime;
    let names = [("&am", 1), ("&amp", 2), ("&ampere;", 3)];
    let trie = ascii_of::<Simple>(rt.alloc(), &names)?;
    same(&rt, longest_key(&trie, b"&amp=1"), Some(2));
    same(&rt, longest_key(&trie, b"&amper"), Some(2));
    same(&rt, longest_key(&trie, b"&a"), None);
    Ok(())
}
