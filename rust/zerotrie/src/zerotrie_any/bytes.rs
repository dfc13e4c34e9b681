// Made from crates/zerotrie_any/src/bytes.rt by rust/make: edit that.
//! The bytes of a trie: validation, and tagged bytes, which begin with the number of the kind.

use crate::rstd::prelude::*;
use crate::zerotrie_any::trie::{HasFlavor, ZeroTrie, ZeroTrieFlavor, by_flavor};
use crate::rstd::alloc::{AllocError, Global};
use crate::zerotrie_core::{Ext, Hash, Simple, TrieStore, ZeroTrieWithOptions, is_well_formed};

/// The bytes are not a valid trie.
///
/// ```
/// # use zerotrie::{rstd::examples::*, zerotrie_any::*, zerotrie_base::*, zerotrie_core::*, zerotrie_build::*};
/// let error = ZeroTrie::try_from_bytes::<Simple>(b"abc").err();
/// assert!(error == Some(NotWellFormed));
/// # Ok::<(), Fail>(())
/// ```
#[derive(Clone, Copy, PartialEq, Eq, Debug)]
pub struct NotWellFormed;

impl core::fmt::Display for NotWellFormed {
    #[inline]
    fn fmt(&self, f: &mut core::fmt::Formatter<'_>) -> core::fmt::Result {
        write!(f, "the bytes are no trie of the kind: they were changed, cut or written as another kind")
    }
}

impl core::error::Error for NotWellFormed {}

/// Tagged bytes do not begin with the tag of a kind that is read.
///
/// ```
/// # use zerotrie::{rstd::examples::*, zerotrie_any::*, zerotrie_base::*, zerotrie_core::*, zerotrie_build::*};
/// assert!(untagged::<Ext>(b"\x03\x81").err() == Some(TagError::InvalidTag));
/// # Ok::<(), Fail>(())
/// ```
#[derive(Clone, PartialEq, Eq, Debug)]
#[cfg_attr(not(feature = "__internal"), non_exhaustive)]
pub enum TagError {
    /// There are no bytes.
    Empty,
    /// The first byte is the tag of another kind, or of none.
    InvalidTag,
}

impl core::fmt::Display for TagError {
    #[inline]
    fn fmt(&self, f: &mut core::fmt::Formatter<'_>) -> core::fmt::Result {
        match self {
            Self::Empty => write!(f, "Empty"),
            Self::InvalidTag => write!(f, "InvalidTag"),
        }
    }
}

impl core::error::Error for TagError {}

impl TagError {
    /// Returns what the error means, and what to do about it.
    pub fn advice(&self) -> &'static str {
        match self {
            TagError::Empty => "there are no bytes: give all of the tagged bytes",
            TagError::InvalidTag => {
                "the first byte is the tag of another kind or of none: give bytes that were written with the tag of the kind that is read"
            }
        }
    }
}

/// Tagged bytes are not a valid trie of a kind that is read.
///
/// ```
/// # use zerotrie::{rstd::examples::*, zerotrie_any::*, zerotrie_base::*, zerotrie_core::*, zerotrie_build::*};
/// assert!(ZeroTrie::load(b"\x00abc").err() == Some(LoadError::NotWellFormed));
/// assert!(ZeroTrie::load(b"").err() == Some(LoadError::Tag(TagError::Empty)));
/// # Ok::<(), Fail>(())
/// ```
#[derive(Clone, PartialEq, Eq, Debug)]
#[cfg_attr(not(feature = "__internal"), non_exhaustive)]
pub enum LoadError {
    /// There are no bytes, or the first is not the tag of a kind that is read.
    Tag(TagError),
    /// The bytes after the tag are malformed.
    NotWellFormed,
}

impl core::fmt::Display for LoadError {
    #[inline]
    fn fmt(&self, f: &mut core::fmt::Formatter<'_>) -> core::fmt::Result {
        match self {
            Self::Tag(field) => write!(f, "the bytes begin with no tag of a kind that is read: {field}"),
            Self::NotWellFormed => write!(f, "the bytes after the tag are no trie of its kind: they were changed or cut"),
        }
    }
}

impl core::error::Error for LoadError {}

impl From<TagError> for LoadError {
    fn from(cause: TagError) -> Self {
        LoadError::Tag(cause)
    }
}

/// Returns the tag of the kind `K`, followed by these bytes.
///
/// ```
/// # use zerotrie::{rstd::examples::*, zerotrie_any::*, zerotrie_base::*, zerotrie_core::*, zerotrie_build::*};
/// let tagged = tagged::<Hash>(Global, b"a\x85")?;
/// assert_eq!(tagged.as_slice(), b"\x03a\x85".as_slice());
/// # Ok::<(), Fail>(())
/// ```
///
/// An error means that an allocation failed.
pub fn tagged<K: ZeroTrieWithOptions>(alloc: Global, bytes: &[u8]) -> Result<Vec<u8>, AllocError> {
    let mut tagged = Vec::with_capacity(alloc, bytes.len() + 1)?;
    tagged.push(K::TAG)?;
    tagged.extend_from_slice(bytes)?;
    Ok(tagged)
}

/// Returns the bytes after the tag of the kind `K`. Does not copy or validate them, and does not
/// allocate.
///
/// ```
/// # use zerotrie::{rstd::examples::*, zerotrie_any::*, zerotrie_base::*, zerotrie_core::*, zerotrie_build::*};
/// assert!(untagged::<Hash>(b"\x03a\x85") == Ok(b"a\x85".as_slice()));
/// # Ok::<(), Fail>(())
/// ```
///
/// The error is `Empty` if there are no bytes, and `InvalidTag` if the first byte is not the kind's
/// tag.
pub fn untagged<K: ZeroTrieWithOptions>(bytes: &[u8]) -> Result<&[u8], TagError> {
    match bytes {
        [] => Err(TagError::Empty),
        [first, behind @ ..] if *first == K::TAG => Ok(behind),
        _ => Err(TagError::InvalidTag),
    }
}

/// Returns the bytes after the tag of the kind `K`, if they are valid. Does not copy them, and does
/// not allocate.
///
/// ```
/// # use zerotrie::{rstd::examples::*, zerotrie_any::*, zerotrie_base::*, zerotrie_core::*, zerotrie_build::*};
/// assert!(loaded::<Hash>(b"\x03a\x85") == Ok(b"a\x85".as_slice()));
/// # Ok::<(), Fail>(())
/// ```
///
/// The error is `Tag` exactly if there are no bytes or the first is not the kind's tag, and
/// `NotWellFormed` exactly if the tag is right and the bytes after it are malformed.
pub fn loaded<K: ZeroTrieWithOptions>(bytes: &[u8]) -> Result<&[u8], LoadError> {
    let rest = untagged::<K>(bytes)?;
    if is_well_formed::<K>(rest) {
        Ok(rest)
    } else {
        Err(LoadError::NotWellFormed)
    }
}

/// Returns the kind of a `ZeroTrie` that has this tag, if there is one.
fn flavor_of(first: u8) -> Option<ZeroTrieFlavor> {
    match first {
        Simple::TAG => Some(ZeroTrieFlavor::SimpleAscii),
        Hash::TAG => Some(ZeroTrieFlavor::PerfectHash),
        Ext::TAG => Some(ZeroTrieFlavor::ExtendedCapacity),
        _ => None,
    }
}

impl<S: TrieStore> ZeroTrie<S> {
    /// Returns whether the bytes are a valid trie of this kind, in which every rule of the format
    /// holds. Does not allocate.
    pub fn is_well_formed(&self) -> bool {
        let bytes = self.store.bytes();
        by_flavor!(self.flavor, is_well_formed::<_>(bytes))
    }

    /// Returns the tag of the kind, followed by the bytes of the trie.
    ///
    /// ```
    /// # use zerotrie::{rstd::examples::*, zerotrie_any::*, zerotrie_base::*, zerotrie_core::*, zerotrie_build::*};
    /// let trie = ZeroTrie::of_kind::<Hash>(b"a\x85".as_slice());
    /// assert_eq!(trie.to_tagged_bytes(Global)?.as_slice(), b"\x03a\x85".as_slice());
    /// # Ok::<(), Fail>(())
    /// ```
    ///
    /// An error means that an allocation failed.
    pub fn to_tagged_bytes(&self, alloc: Global) -> Result<Vec<u8>, AllocError> {
        let bytes = self.store.bytes();
        by_flavor!(self.flavor, tagged::<_>(alloc, bytes))
    }
}

impl<'a> ZeroTrie<&'a [u8]> {
    /// Returns the trie over these bytes if they are valid. Does not allocate.
    ///
    /// ```
    /// # use zerotrie::{rstd::examples::*, zerotrie_any::*, zerotrie_base::*, zerotrie_core::*, zerotrie_build::*};
    /// let trie = ZeroTrie::try_from_bytes::<Simple>(b"abc\x85")?;
    /// assert_eq!(trie.get(b"abc"), Some(5));
    /// # Ok::<(), Fail>(())
    /// ```
    ///
    /// The error is `NotWellFormed` exactly if the bytes are malformed. Read tagged bytes by
    /// `load`: this call would take their tag for the first byte of every key.
    pub fn try_from_bytes<K: HasFlavor>(bytes: &'a [u8]) -> Result<Self, NotWellFormed> {
        if is_well_formed::<K>(bytes) {
            Ok(ZeroTrie::of_kind::<K>(bytes))
        } else {
            Err(NotWellFormed)
        }
    }

    /// Returns the trie over the bytes after the tag of a kind. Does not copy or validate them, and
    /// does not allocate.
    ///
    /// ```
    /// # use zerotrie::{rstd::examples::*, zerotrie_any::*, zerotrie_base::*, zerotrie_core::*, zerotrie_build::*};
    /// let trie = ZeroTrie::try_from_tagged_bytes(b"\x07a\x85")?;
    /// assert_eq!(trie.get(b"a"), Some(5));
    /// # Ok::<(), Fail>(())
    /// ```
    ///
    /// The error is `Empty` if there are no bytes, and `InvalidTag` if the first byte is not the
    /// tag of a kind that a `ZeroTrie` may have: 0, 3 or 7.
    pub fn try_from_tagged_bytes(bytes: &'a [u8]) -> Result<Self, TagError> {
        let [first, store @ ..] = bytes else {
            return Err(TagError::Empty);
        };
        match flavor_of(*first) {
            Some(flavor) => Ok(ZeroTrie { flavor, store }),
            None => Err(TagError::InvalidTag),
        }
    }

    /// Returns the trie over the bytes after the tag of a kind, if they are valid. Does not copy
    /// them, and does not allocate.
    ///
    /// ```
    /// # use zerotrie::{rstd::examples::*, zerotrie_any::*, zerotrie_base::*, zerotrie_core::*, zerotrie_build::*};
    /// let trie = ZeroTrie::load(b"\x07a\x85")?;
    /// assert_eq!(trie.get(b"a"), Some(5));
    /// # Ok::<(), Fail>(())
    /// ```
    ///
    /// This is `try_from_tagged_bytes` followed by `is_well_formed`. The error is `Tag` exactly if
    /// the first of these returns an error, and `NotWellFormed` exactly if the tag is right and the
    /// bytes after it are malformed.
    pub fn load(bytes: &'a [u8]) -> Result<Self, LoadError> {
        let trie = ZeroTrie::try_from_tagged_bytes(bytes)?;
        if trie.is_well_formed() {
            Ok(trie)
        } else {
            Err(LoadError::NotWellFormed)
        }
    }
}
