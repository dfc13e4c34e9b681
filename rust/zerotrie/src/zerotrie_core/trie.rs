// Made from crates/zerotrie_core/src/trie.rt by rust/make: edit that.
//! A trie of any type, and its plain form.

use crate::rstd::prelude::*;
use crate::zerotrie_core::borders::longest_prefix_at;
use crate::zerotrie_core::faults::{Fault, first_fault};
use crate::zerotrie_core::listing::ListError;
use crate::zerotrie_core::prefixes::{CommonPrefixes, longest_prefix};
use crate::zerotrie_core::reader::get;
use crate::zerotrie_core::stream::ZeroTrieStream;
use crate::zerotrie_core::values::{ZeroTrieValues, first_key_of};
use crate::zerotrie_core::walk::{Nodes, count_pairs};
use crate::zerotrie_core::well_formed::is_well_formed;
use crate::rstd::alloc::{AllocError, Global};
use crate::zerotrie_base::{TrieKind, by_kind};

/// A trie of any type: the bytes of a trie, and its kind.
///
/// ```
/// # use zerotrie::{rstd::examples::*, zerotrie_core::*, zerotrie_base::*};
/// let trie = TrieRef { kind: TrieKind::Simple, bytes: b"in\x83to\x84" };
/// assert_eq!(trie.longest_prefix(b"intro"), Some((2, 3)));
/// assert_eq!(trie.count(), 2);
/// # Ok::<(), Fail>(())
/// ```
///
/// On valid bytes, such as those of every build, each call returns the result for their map. On
/// malformed bytes results are unspecified; no call panics or reads outside them.
pub trait Trie {
    // The kind of the trie.

    // The bytes of the trie.

    /// Returns the kind of the trie.
    fn trie_kind(&self) -> TrieKind;

    /// Returns the bytes of the trie.
    fn as_bytes(&self) -> &[u8];

    /// Returns the value of the key, or `None` if the trie does not have it. Does not allocate.
    #[inline(always)]
    fn get(&self, key: &[u8]) -> Option<usize> {
        by_kind!(self.trie_kind(), get::<_>(self.as_bytes(), key))
    }

    /// Returns the value of a `str` key, as `get` does for its bytes.
    ///
    /// ```
    /// # use zerotrie::{rstd::examples::*, zerotrie_core::*, zerotrie_base::*};
    /// let trie = TrieRef { kind: TrieKind::Simple, bytes: b"abc\x85" };
    /// assert_eq!(trie.get_str("abc"), Some(5));
    /// # Ok::<(), Fail>(())
    /// ```
    #[inline(always)]
    fn get_str(&self, key: &str) -> Option<usize> {
        self.get(key.as_bytes())
    }

    /// Returns whether the trie has the key. Does not allocate.
    ///
    /// ```
    /// # use zerotrie::{rstd::examples::*, zerotrie_core::*, zerotrie_base::*};
    /// let trie = TrieRef { kind: TrieKind::Simple, bytes: b"abc\x85" };
    /// assert!(trie.contains_key(b"abc"));
    /// assert!(!trie.contains_key(b"ab"));
    /// # Ok::<(), Fail>(())
    /// ```
    #[inline(always)]
    fn contains_key(&self, key: &[u8]) -> bool {
        self.get(key).is_some()
    }

    /// Returns the length in bytes and the value of the longest key that `text` begins with, or
    /// `None` if there is none.
    ///
    /// ```
    /// # use zerotrie::{rstd::examples::*, zerotrie_core::*, zerotrie_base::*};
    /// let trie = TrieRef { kind: TrieKind::Simple, bytes: b"en\x81-Latn\x82" };
    /// assert_eq!(trie.longest_prefix(b"en-Latn-US"), Some((7, 2)));
    /// assert_eq!(trie.longest_prefix(b"de"), None);
    /// # Ok::<(), Fail>(())
    /// ```
    ///
    /// Reads `text` once, up to the first byte that no key has there. Does not allocate.
    #[inline]
    fn longest_prefix(&self, text: &[u8]) -> Option<(usize, usize)> {
        by_kind!(self.trie_kind(), longest_prefix::<_>(self.as_bytes(), text))
    }

    /// Returns the length in bytes and the value of the longest key that `text` begins with and
    /// that ends at a border of `text`, or `None` if there is none. A border is the end of `text`,
    /// or a place with one of the delimiters next. The empty key always counts.
    ///
    /// ```
    /// # use zerotrie::{rstd::examples::*, zerotrie_core::*, zerotrie_base::*};
    /// let trie = TrieRef { kind: TrieKind::Simple, bytes: b"en\x81-Latn\x82" };
    /// assert_eq!(trie.longest_prefix_at(b"en-Latn-US", b"-_"), Some((7, 2)));
    /// assert_eq!(trie.longest_prefix_at(b"en_GB", b"-_"), Some((2, 1)));
    /// assert_eq!(trie.longest_prefix_at(b"english", b"-_"), None);
    /// # Ok::<(), Fail>(())
    /// ```
    ///
    /// Reads `text` once, up to the first byte that no key has there. Does not allocate.
    #[inline]
    fn longest_prefix_at(&self, text: &[u8], delimiters: &[u8]) -> Option<(usize, usize)> {
        by_kind!(
            self.trie_kind(),
            longest_prefix_at::<_>(self.as_bytes(), text, delimiters)
        )
    }

    /// Returns an iterator over the keys that `text` begins with, the shortest first: the length in
    /// bytes and the value of each.
    ///
    /// ```
    /// # use zerotrie::{rstd::examples::*, zerotrie_core::*, zerotrie_base::*};
    /// let trie = TrieRef { kind: TrieKind::Simple, bytes: b"en\x81-Latn\x82" };
    /// let mut keys = trie.common_prefixes(b"en-Latn-US");
    /// assert_eq!(keys.next(), Some((2, 1)));
    /// assert_eq!(keys.next(), Some((7, 2)));
    /// assert_eq!(keys.next(), None);
    /// # Ok::<(), Fail>(())
    /// ```
    ///
    /// Reads `text` once, up to the first byte that no key has there. Does not allocate.
    #[inline]
    fn common_prefixes<'t>(&self, text: &'t [u8]) -> CommonPrefixes<'_, 't> {
        by_kind!(
            self.trie_kind(),
            CommonPrefixes::new::<_>(self.as_bytes(), text)
        )
    }

    /// Returns a lending iterator over the pairs, in the order of the trie's `iter`: each key is
    /// borrowed from one buffer. Does not allocate before the first pair, nor for each pair.
    ///
    /// ```
    /// # use zerotrie::{rstd::examples::*, zerotrie_core::*, zerotrie_base::*};
    /// let trie = TrieRef { kind: TrieKind::Simple, bytes: b"en\x81-Latn\x82" };
    /// let mut pairs = trie.stream(Global);
    /// assert!(pairs.advance()?);
    /// assert_eq!((pairs.key(), pairs.value()), (b"en".as_slice(), 1));
    /// # Ok::<(), Fail>(())
    /// ```
    #[inline]
    fn stream(&self, alloc: Global) -> ZeroTrieStream<'_> {
        by_kind!(
            self.trie_kind(),
            ZeroTrieStream::new::<_>(alloc, self.as_bytes())
        )
    }

    /// Returns a lending iterator over the pairs whose keys begin with a prefix, each with its
    /// whole key, in the order of the trie's `iter`.
    ///
    /// ```
    /// # use zerotrie::{rstd::examples::*, zerotrie_core::*, zerotrie_base::*};
    /// let trie = TrieRef { kind: TrieKind::Simple, bytes: b"in\x83to\x84" };
    /// let mut pairs = trie.stream_prefix(Global, b"int")?;
    /// assert!(pairs.advance()?);
    /// assert_eq!((pairs.key(), pairs.value()), (b"into".as_slice(), 4));
    /// # Ok::<(), Fail>(())
    /// ```
    ///
    /// Reads no part of the trie but the one below the prefix. An error means that an allocation
    /// failed.
    #[inline]
    fn stream_prefix(&self, alloc: Global, prefix: &[u8]) -> Result<ZeroTrieStream<'_>, AllocError> {
        by_kind!(
            self.trie_kind(),
            ZeroTrieStream::with_prefix::<_>(alloc, self.as_bytes(), prefix)
        )
    }

    /// Returns an iterator over the values, in the order of the trie's `iter`. Does not allocate
    /// before the first `next`.
    ///
    /// ```
    /// # use zerotrie::{rstd::examples::*, zerotrie_core::*, zerotrie_base::*};
    /// let trie = TrieRef { kind: TrieKind::Simple, bytes: b"in\x83to\x84" };
    /// assert_eq!(trie.values(Global).next().ok_or("no value")??, 3);
    /// # Ok::<(), Fail>(())
    /// ```
    #[inline]
    fn values(&self, alloc: Global) -> ZeroTrieValues<'_> {
        by_kind!(
            self.trie_kind(),
            ZeroTrieValues::new::<_>(alloc, self.as_bytes())
        )
    }

    /// Returns the number of keys. Reads the bytes once and does not allocate.
    ///
    /// ```
    /// # use zerotrie::{rstd::examples::*, zerotrie_core::*, zerotrie_base::*};
    /// let trie = TrieRef { kind: TrieKind::Simple, bytes: b"in\x83to\x84" };
    /// assert_eq!(trie.count(), 2);
    /// # Ok::<(), Fail>(())
    /// ```
    ///
    /// On malformed bytes the result is unspecified.
    #[inline]
    fn count(&self) -> usize {
        by_kind!(self.trie_kind(), count_pairs::<_>(self.as_bytes()))
    }

    /// Returns the first key, in the order of the trie's `iter`, that has this value, or `None` if
    /// no key has it.
    ///
    /// ```
    /// # use zerotrie::{rstd::examples::*, zerotrie_core::*, zerotrie_base::*};
    /// let trie = TrieRef { kind: TrieKind::Simple, bytes: b"in\x83to\x84" };
    /// let key = trie.first_key_of(Global, 4)?.ok_or("no key")?;
    /// assert_eq!(key.as_slice(), b"into".as_slice());
    /// # Ok::<(), Fail>(())
    /// ```
    ///
    /// The only error is `OutOfMemory`.
    #[inline]
    fn first_key_of(&self, alloc: Global, value: usize) -> Result<Option<Vec<u8>>, ListError> {
        by_kind!(
            self.trie_kind(),
            first_key_of::<_>(alloc, self.as_bytes(), value)
        )
    }

    /// Returns a lending iterator over the nodes, in the order of their bytes, each with its place.
    ///
    /// ```
    /// # use zerotrie::{rstd::examples::*, zerotrie_core::*, zerotrie_base::*};
    /// let trie = TrieRef { kind: TrieKind::Simple, bytes: b"a\x85" };
    /// let mut nodes = trie.nodes(Global)?;
    /// assert_eq!(nodes.next_node()?.ok_or("no node")?.part.place, 0);
    /// assert_eq!(nodes.next_node()?.ok_or("no node")?.part.place, 1);
    /// assert!(nodes.next_node()?.is_none());
    /// # Ok::<(), Fail>(())
    /// ```
    ///
    /// The only error is a failed allocation.
    #[inline]
    fn nodes(&self, alloc: Global) -> Result<Nodes<'_>, AllocError> {
        by_kind!(self.trie_kind(), Nodes::new::<_>(alloc, self.as_bytes()))
    }

    /// Returns whether the bytes are a valid trie of this kind, in which every rule of the format
    /// holds. Does not allocate.
    ///
    /// ```
    /// # use zerotrie::{rstd::examples::*, zerotrie_core::*, zerotrie_base::*};
    /// let trie = TrieRef { kind: TrieKind::Simple, bytes: b"abc\x85" };
    /// assert!(trie.is_well_formed());
    /// # Ok::<(), Fail>(())
    /// ```
    #[inline]
    fn is_well_formed(&self) -> bool {
        by_kind!(self.trie_kind(), is_well_formed::<_>(self.as_bytes()))
    }

    /// Returns the first place where the bytes are no valid trie of this kind, and which rule of
    /// the format fails there. `None` exactly if they are valid.
    ///
    /// ```
    /// # use zerotrie::{rstd::examples::*, zerotrie_core::*, zerotrie_base::*};
    /// let trie = TrieRef { kind: TrieKind::Simple, bytes: b"abc" };
    /// let fault = trie.first_fault(Global)?.ok_or("no fault")?;
    /// assert_eq!((fault.place, fault.cause), (3, FaultCause::UnexpectedEnd));
    /// # Ok::<(), Fail>(())
    /// ```
    ///
    /// The only error is a failed allocation.
    #[inline]
    fn first_fault(&self, alloc: Global) -> Result<Option<Fault>, AllocError> {
        by_kind!(
            self.trie_kind(),
            first_fault::<_, Global>(alloc, self.as_bytes())
        )
    }
}

/// A trie whose kind is known only when the program runs: its plain form, which borrows the bytes.
///
/// ```
/// # use zerotrie::{rstd::examples::*, zerotrie_core::*, zerotrie_base::*};
/// let trie = TrieRef { kind: TrieKind::Ignore, bytes: b"aB\x85" };
/// assert_eq!(trie.get(b"Ab"), Some(5));
/// # Ok::<(), Fail>(())
/// ```
#[derive(Clone, Copy, Debug)]
pub struct TrieRef<'a> {
    /// The kind of the trie.
    pub kind: TrieKind,
    /// The bytes of the trie.
    pub bytes: &'a [u8],
}

impl<'a> Trie for TrieRef<'a> {
    #[inline]
    fn trie_kind(&self) -> TrieKind {
        self.kind
    }

    #[inline]
    fn as_bytes(&self) -> &[u8] {
        self.bytes
    }
}
