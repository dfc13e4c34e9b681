// Made from crates/zerotrie_reverse/src/tries.rt by rust/make: edit that.
//! Reverse look-ups in every trie.

use crate::zerotrie_reverse::table::KeysByValue;
use crate::rstd::alloc::{AllocError, Global};
use crate::zerotrie_core::{Trie, by_kind};

/// A trie whose keys can be found by their values: each type of trie, over each store.
///
/// ```
/// # use zerotrie::{rstd::examples::*, zerotrie_reverse::*, zerotrie_base::*, zerotrie_core::*};
/// let trie = TrieRef { kind: TrieKind::Simple, bytes: b"in\x83to\x84" };
/// let table = trie.keys_by_value(Global)?;
/// let key = table.first_key_of(Global, 4)?.ok_or("no key")?;
/// assert_eq!(key.as_slice(), b"into".as_slice());
/// # Ok::<(), Fail>(())
/// ```
pub trait Reverse: Trie {
    /// Builds the table that finds the first key that has a value.
    ///
    /// The only error is a failed allocation.
    #[inline]
    fn keys_by_value(&self, alloc: Global) -> Result<KeysByValue<'_>, AllocError> {
        by_kind!(
            self.trie_kind(),
            KeysByValue::new::<_>(alloc, self.as_bytes())
        )
    }
}

impl<R: Trie> Reverse for R {}
