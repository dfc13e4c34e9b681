// Made from crates/zerotrie_base/src/pairs.rt by rust/make: edit that.
//! Pairs of a key and a value.

use crate::zerotrie_base::store::TrieKey;

/// A pair of a key and a value, as a build takes it.
///
/// ```
/// # use zerotrie::{rstd::examples::*, zerotrie_base::*};
/// assert_eq!(("ad", 22).pair_key(), b"ad".as_slice());
/// # Ok::<(), Fail>(())
/// ```
///
/// `pair_key` returns the same bytes at each call.
pub trait TriePair {
    /// Returns the bytes of the key. Does not allocate or copy.
    fn pair_key(&self) -> &[u8];
}

impl<Key: TrieKey> TriePair for (Key, usize) {
    fn pair_key(&self) -> &[u8] {
        self.0.key_bytes()
    }
}

/// Returns whether all keys are ASCII.
///
/// ```
/// # use zerotrie::{rstd::examples::*, zerotrie_base::*};
/// assert!(are_ascii(&[("ad", 22), ("adef", 33)]));
/// assert!(!are_ascii(&[("å", 1)]));
/// # Ok::<(), Fail>(())
/// ```
pub fn are_ascii<P: TriePair>(pairs: &[P]) -> bool {
    pairs.iter().all(|pair| pair.pair_key().is_ascii())
}
