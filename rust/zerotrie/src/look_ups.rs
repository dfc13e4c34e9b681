//! Look-ups of many keys.

use crate::zerotrie_core::{self, Ext, Hash, Ignore, Simple, TrieKind};
use core::fmt;

/// A reader for many keys of one trie.
///
/// ```
/// use zerotrie::ZeroTrieSimpleAscii;
///
/// let trie = ZeroTrieSimpleAscii::try_from_iter([("in", 1), ("on", 2)])?;
/// let mut look_ups = trie.look_ups();
/// let values: Vec<_> = ["on", "to"].iter().map(|key| look_ups.get(key)).collect();
/// assert_eq!(values, [Some(2), None]);
/// # Ok::<(), zerotrie::ZeroTrieBuildError>(())
/// ```
pub struct LookUps<'a>(Kinds<'a>);

#[allow(clippy::large_enum_variant)]
enum Kinds<'a> {
    Simple(zerotrie_core::LookUps<'a, Simple>),
    Ignore(zerotrie_core::LookUps<'a, Ignore>),
    Hash(zerotrie_core::LookUps<'a, Hash>),
    Ext(zerotrie_core::LookUps<'a, Ext>),
}

impl<'a> LookUps<'a> {
    pub(crate) fn of(kind: TrieKind, bytes: &'a [u8]) -> Self {
        LookUps(match kind {
            TrieKind::Simple => Kinds::Simple(zerotrie_core::LookUps::new(bytes)),
            TrieKind::Ignore => Kinds::Ignore(zerotrie_core::LookUps::new(bytes)),
            TrieKind::Hash => Kinds::Hash(zerotrie_core::LookUps::new(bytes)),
            TrieKind::Ext => Kinds::Ext(zerotrie_core::LookUps::new(bytes)),
        })
    }

    /// Returns the value of a key.
    ///
    /// ```
    /// use zerotrie::ZeroTriePerfectHash;
    ///
    /// let trie = ZeroTriePerfectHash::try_from_iter([("in", 1)])?;
    /// assert_eq!(trie.look_ups().get("in"), Some(1));
    /// # Ok::<(), zerotrie::ZeroTrieBuildError>(())
    /// ```
    pub fn get<K: AsRef<[u8]>>(&mut self, key: K) -> Option<usize> {
        let key = key.as_ref();
        match &mut self.0 {
            Kinds::Simple(look_ups) => look_ups.get(key),
            Kinds::Ignore(look_ups) => look_ups.get(key),
            Kinds::Hash(look_ups) => look_ups.get(key),
            Kinds::Ext(look_ups) => look_ups.get(key),
        }
    }
}

impl fmt::Debug for LookUps<'_> {
    fn fmt(&self, f: &mut fmt::Formatter<'_>) -> fmt::Result {
        f.debug_struct("LookUps").finish_non_exhaustive()
    }
}
