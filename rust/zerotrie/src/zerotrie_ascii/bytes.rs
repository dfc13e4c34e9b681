// Made from crates/zerotrie_ascii/src/bytes.rt by rust/make: edit that.
//! The bytes of a trie: validation, and tagged bytes, which begin with the number of the kind.

use crate::rstd::prelude::*;
use crate::zerotrie_ascii::trie::{AsciiKind, AsciiTrie};
use crate::rstd::alloc::{AllocError, Global};
use crate::zerotrie_any::{LoadError, NotWellFormed, TagError, loaded, tagged, untagged};
use crate::zerotrie_core::{TrieStore, is_well_formed};

impl<K: AsciiKind, S: TrieStore> AsciiTrie<K, S> {
    /// Returns whether the bytes are a valid trie of this kind, in which every rule of the format
    /// holds. Does not allocate.
    ///
    /// ```
    /// # use zerotrie::{rstd::examples::*, zerotrie_ascii::*, zerotrie_core::*, zerotrie_build::*, zerotrie_any::*};
    /// let trie = ZeroTrieSimpleAscii::from_bytes(b"abc\x85");
    /// assert!(trie.is_well_formed());
    /// # Ok::<(), Fail>(())
    /// ```
    pub fn is_well_formed(&self) -> bool {
        is_well_formed::<K>(self.as_bytes())
    }

    /// Returns the tag of the kind, followed by the bytes of the trie.
    ///
    /// ```
    /// # use zerotrie::{rstd::examples::*, zerotrie_ascii::*, zerotrie_core::*, zerotrie_build::*, zerotrie_any::*};
    /// let trie = ZeroTrieSimpleAscii::from_bytes(b"a\x85");
    /// assert_eq!(trie.to_tagged_bytes(Global)?.as_slice(), b"\x00a\x85".as_slice());
    /// # Ok::<(), Fail>(())
    /// ```
    ///
    /// An error means that an allocation failed.
    pub fn to_tagged_bytes(&self, alloc: Global) -> Result<Vec<u8>, AllocError> {
        tagged::<K>(alloc, self.as_bytes())
    }
}

impl<'a, K: AsciiKind> AsciiTrie<K, &'a [u8]> {
    /// Returns the trie over these bytes if they are valid. Does not allocate.
    ///
    /// ```
    /// # use zerotrie::{rstd::examples::*, zerotrie_ascii::*, zerotrie_core::*, zerotrie_build::*, zerotrie_any::*};
    /// let trie = ZeroTrieSimpleAscii::try_from_bytes(b"in\x83to\x84")?;
    /// assert_eq!(trie.get(b"into"), Some(4));
    /// assert!(ZeroTrieSimpleAscii::try_from_bytes(b"into").is_err());
    /// # Ok::<(), Fail>(())
    /// ```
    ///
    /// The error is `NotWellFormed` exactly if the bytes are malformed. Read tagged bytes by
    /// `load`: this call would take their tag for the first byte of every key.
    pub fn try_from_bytes(bytes: &'a [u8]) -> Result<Self, NotWellFormed> {
        if is_well_formed::<K>(bytes) {
            Ok(AsciiTrie::from_bytes(bytes))
        } else {
            Err(NotWellFormed)
        }
    }

    /// Returns the trie over the bytes after the tag of its kind. Does not copy or validate them,
    /// and does not allocate.
    ///
    /// ```
    /// # use zerotrie::{rstd::examples::*, zerotrie_ascii::*, zerotrie_core::*, zerotrie_build::*, zerotrie_any::*};
    /// let trie = ZeroTrieSimpleAscii::try_from_tagged_bytes(b"\x00a\x85")?;
    /// assert_eq!(trie.get(b"a"), Some(5));
    /// # Ok::<(), Fail>(())
    /// ```
    ///
    /// The error is `Empty` if there are no bytes, and `InvalidTag` if the first byte is not the
    /// kind's tag.
    pub fn try_from_tagged_bytes(bytes: &'a [u8]) -> Result<Self, TagError> {
        let behind = untagged::<K>(bytes)?;
        Ok(AsciiTrie::from_bytes(behind))
    }

    /// Returns the trie over the bytes after the tag of its kind, if they are valid. Does not copy
    /// them, and does not allocate.
    ///
    /// ```
    /// # use zerotrie::{rstd::examples::*, zerotrie_ascii::*, zerotrie_core::*, zerotrie_build::*, zerotrie_any::*};
    /// let trie = ZeroTrieSimpleAscii::load(b"\x00a\x85")?;
    /// assert_eq!(trie.get(b"a"), Some(5));
    /// assert!(ZeroTrieSimpleAscii::load(b"\x00a").err() == Some(LoadError::NotWellFormed));
    /// # Ok::<(), Fail>(())
    /// ```
    ///
    /// This is `try_from_tagged_bytes` followed by `is_well_formed`. The error is `Tag` exactly if
    /// the first of these returns an error, and `NotWellFormed` exactly if the tag is right and the
    /// bytes after it are malformed.
    pub fn load(bytes: &'a [u8]) -> Result<Self, LoadError> {
        let rest = loaded::<K>(bytes)?;
        Ok(AsciiTrie::from_bytes(rest))
    }
}
