// Made from crates/zerotrie_uses/src/cursors.rt by rust/make: edit that.
//! Keys in parts, followed by a cursor.

use crate::rstd::prelude::*;
use crate::rstd::fmt::Write;
use crate::zerotrie_all::cursor::ZeroTriePerfectHashCursor;
use crate::zerotrie_all::{TrieStore, ZeroTriePerfectHash, ZeroTrieSimpleAscii, laws};

/// Returns the value of a key that is written to a cursor. Returns `None` if it is not ASCII, as no
/// key is.
pub fn find_written<S: TrieStore>(trie: &ZeroTrieSimpleAscii<S>, name: &str) -> Option<usize> {
    laws::steps_look_ahead();
    trie.get_with_write_fn(|cursor| cursor.write_str(name))
}

/// Makes a step by each byte.
fn go_down(cursor: &mut ZeroTriePerfectHashCursor<'_>, bytes: &[u8]) {
    for byte in bytes {
        cursor.step(*byte);
    }
}

/// Returns the trie of what the keys have after a prefix: a look-up of a key in it equals that of the
/// prefix and the key together in the whole. It borrows the bytes of the whole, and does not allocate.
///
/// Returns `None` if the prefix ends inside a span, whose rest is no trie of its own. `find_behind`
/// works there too.
pub fn suffixes_of<'a, S: TrieStore>(
    trie: &'a ZeroTriePerfectHash<S>,
    prefix: &[u8],
) -> Option<ZeroTriePerfectHash<&'a [u8]>> {
    laws::steps_look_ahead();
    let mut cursor = trie.cursor();
    go_down(&mut cursor, prefix);
    let suffixes = cursor.into_suffix_trie()?;
    Some(suffixes)
}

/// Returns the value of a prefix and a key together. The prefix may end inside a span.
pub fn find_behind<S: TrieStore>(
    trie: &ZeroTriePerfectHash<S>,
    prefix: &[u8],
    key: &[u8],
) -> Option<usize> {
    laws::steps_look_ahead();
    let mut cursor = trie.cursor();
    go_down(&mut cursor, prefix);
    go_down(&mut cursor, key);
    cursor.take_value()
}
