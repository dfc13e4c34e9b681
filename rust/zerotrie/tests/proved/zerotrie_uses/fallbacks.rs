// Made from crates/zerotrie_uses/src/fallbacks.rt by rust/make: edit that.
//! Tables with a fallback: the longest key that a name or a text begins with.

use crate::rstd::prelude::*;
use crate::zerotrie_all::{Trie, TrieStore, ZeroTriePerfectHash, ZeroTrieSimpleAscii};

/// Returns the value that a locale falls back to: that of the longest key that is the name itself, or
/// the part of it before one of its hyphens. So `en-Latn-GB` falls back to `en-Latn`, and `fil-PH` to
/// `fil` and never to `fi`.
///
/// The empty key is the root, the last that a name falls back to. Returns `None` if it is no key
/// either.
pub fn fall_back<S: TrieStore>(trie: &ZeroTrieSimpleAscii<S>, name: &[u8]) -> Option<usize> {
    let (_len, value) = trie.longest_prefix_at(name, b"-")?;
    Some(value)
}

/// Returns whether a part of a name ends after this many bytes: at its beginning, before a hyphen, or
/// at its end.
fn ends_part(name: &[u8], len: usize) -> bool {
    len == 0 || name.get(len).is_none_or(|byte| *byte == b'-')
}

/// Like `fall_back`, among keys of any bytes, by a loop over all prefixes that are keys: copy it if
/// your test of a prefix is another.
pub fn fall_back_in_hashed<S: TrieStore>(
    trie: &ZeroTriePerfectHash<S>,
    name: &[u8],
) -> Option<usize> {
    let mut found = None;
    for (len, value) in trie.common_prefixes(name) {
        if ends_part(name, len) {
            found = Some(value);
        }
    }
    found
}

/// Returns the value of the longest key that a text begins with, or `None` if it begins with no key.
///
/// HTML's character references end so: `&amp` is read in `&amp=1`. Locales want `fall_back`.
pub fn longest_key<S: TrieStore>(trie: &ZeroTrieSimpleAscii<S>, text: &[u8]) -> Option<usize> {
    let (_len, value) = trie.longest_prefix(text)?;
    Some(value)
}
