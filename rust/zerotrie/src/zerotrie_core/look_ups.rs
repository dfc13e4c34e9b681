// Made from crates/zerotrie_core/src/look_ups.rt by rust/make: edit that.
//! Many look-ups in one trie.
//!
//! All keys begin at the first node, which usually is the largest branch. So the target of each
//! first byte is found once, and later keys with this byte begin there.

use crate::zerotrie_core::laws::steps_look_ahead;
use crate::zerotrie_core::reader::get;
use crate::zerotrie_core::span_cursor::SpanCursor;
use core::marker::PhantomData;
use crate::zerotrie_base::ZeroTrieWithOptions;

/// Look-ups of many keys in one trie, of the kind `K`.
///
/// ```
/// # use zerotrie::{rstd::examples::*, zerotrie_core::*, zerotrie_base::*};
/// let bytes = b"\xC2ab\x01\x81c\x82";          // the keys "a" with value 1 and "bc" with value 2
/// let mut trie = LookUps::<Simple>::new(bytes);
/// assert_eq!(trie.get(b"a"), Some(1));
/// assert_eq!(trie.get(b"bc"), Some(2));
/// assert_eq!(trie.get(b"b"), None);
/// # Ok::<(), Fail>(())
/// ```
///
/// It keeps the target of each first byte that a key began with, in an array of 4 KB, and does not
/// allocate. From some dozens of keys on it is faster than `get`.
pub struct LookUps<'a, K: ZeroTrieWithOptions> {
    bytes: &'a [u8],
    targets: [&'a [u8]; 256],
    kind: PhantomData<K>,
}

/// Returns the trie after a first byte: empty if no key begins with it, `None` inside a span.
fn target_of<K: ZeroTrieWithOptions>(bytes: &[u8], byte: u8) -> Option<&[u8]> {
    steps_look_ahead();
    let mut cursor = SpanCursor::new(bytes);
    cursor.step::<K>(byte);
    cursor.rest()
}

impl<'a, K: ZeroTrieWithOptions> LookUps<'a, K> {
    /// Creates look-ups in the trie of these bytes.
    #[inline(always)]
    pub fn new(bytes: &'a [u8]) -> Self {
        let (nothing, _) = bytes.split_at(0);
        LookUps {
            bytes,
            targets: [nothing; 256],
            kind: PhantomData,
        }
    }

    /// Returns the trie after a first byte, and keeps it unless it is empty.
    #[inline(always)]
    fn target(&mut self, byte: u8) -> Option<&'a [u8]> {
        let known = self.targets[byte as usize];
        if !known.is_empty() {
            return Some(known);
        }
        let target = target_of::<K>(self.bytes, byte)?;
        self.targets[byte as usize] = target;
        Some(target)
    }

    /// Returns the bytes in which the look-up of a key begins, and the rest of the key there.
    #[inline(always)]
    fn start<'k>(&mut self, key: &'k [u8]) -> (&'a [u8], &'k [u8]) {
        let Some((byte, left)) = key.split_first() else {
            return (self.bytes, key);
        };
        if let Some(target) = self.target(*byte) {
            return (target, left);
        }
        (self.bytes, key)
    }

    /// Returns the value of a key, or `None` if the trie does not have it.
    ///
    /// On malformed bytes the result is unspecified. It does not allocate.
    #[inline(always)]
    pub fn get(&mut self, key: &[u8]) -> Option<usize> {
        let (trie, left) = self.start(key);
        get::<K>(trie, left)
    }
}
