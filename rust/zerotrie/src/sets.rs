//! Unions, intersections, differences and changes of tries of any types.
//!
//! Each type of tries has the calls for two: `union`, `intersection`, `difference`,
//! `symmetric_difference` and `diff`. [`MergeAll`] is for any number, and its `selected` returns
//! the value that a set operation has for a key:
//!
//! ```
//! use zerotrie::{ZeroTrie, ZeroTrieSimpleAscii};
//! use zerotrie::sets::{MergeAll, Rule, Selection};
//!
//! let monday = ZeroTrieSimpleAscii::try_from_iter([("bread", 2), ("milk", 1)])?;
//! let tuesday = ZeroTrieSimpleAscii::try_from_iter([("bread", 1), ("tea", 4)])?;
//! let friday = ZeroTrie::try_from_iter([("bread", 3), ("milk", 1)])?;
//! let days = [monday.stream_sorted(..), tuesday.stream_sorted(..), friday.stream_sorted(..)];
//! let (mut all, mut each_day) = (Vec::new(), Vec::new());
//! let mut rows = MergeAll::new(days);
//! while rows.advance() {
//!     let sum = rows.selected(Selection::Union, Rule::Sum).unwrap();
//!     all.extend(sum.map(|sum| (rows.key().to_vec(), sum)));
//!     each_day.extend(rows.selected(Selection::Intersection, Rule::Max).unwrap());
//! }
//! assert_eq!(all, [(b"bread".to_vec(), 6), (b"milk".to_vec(), 2), (b"tea".to_vec(), 4)]);
//! assert_eq!(each_day, [3]);
//! # Ok::<(), zerotrie::ZeroTrieBuildError>(())
//! ```

pub use crate::listing::{Changes, Combination, Difference};
pub use crate::zerotrie_core::PairStream;
pub use crate::zerotrie_sets::{Change, Combined, Keep, Operation, Rule, RuleError, Selection, SortedSlice};

use crate::Pairs;
use crate::listing::allocated;
use crate::rstd::alloc::Global;
use crate::rstd::vec::CollectIn;
use crate::zerotrie_sets;
use core::fmt;

/// Lists the keys of any number of listings in ascending order, each once, with the value that each
/// listing has for it.
///
/// ```
/// use zerotrie::ZeroTrieSimpleAscii;
/// use zerotrie::sets::MergeAll;
///
/// let first = ZeroTrieSimpleAscii::try_from_iter([("in", 1), ("on", 2)])?;
/// let second = ZeroTrieSimpleAscii::try_from_iter([("in", 5)])?;
/// let mut rows = MergeAll::new([first.stream_sorted(..), second.stream_sorted(..)]);
/// assert!(rows.advance());
/// assert_eq!((rows.key(), rows.value(0), rows.value(1)), (b"in".as_slice(), Some(1), Some(5)));
/// assert!(rows.advance());
/// assert_eq!((rows.key(), rows.first(), rows.last()), (b"on".as_slice(), Some(2), Some(2)));
/// assert!(!rows.advance());
/// # Ok::<(), zerotrie::ZeroTrieBuildError>(())
/// ```
#[must_use = "a listing does nothing until it is read"]
pub struct MergeAll<S: PairStream> {
    rows: zerotrie_sets::MergeAll<S>,
}

impl<S: PairStream> MergeAll<S> {
    /// Merges listings whose keys ascend, as sorted listings do.
    ///
    /// ```
    /// use zerotrie::ZeroTrieSimpleAscii;
    /// use zerotrie::sets::MergeAll;
    ///
    /// let trie = ZeroTrieSimpleAscii::try_from_iter([("in", 1)])?;
    /// assert!(MergeAll::new([trie.stream_sorted(..)]).advance());
    /// # Ok::<(), zerotrie::ZeroTrieBuildError>(())
    /// ```
    pub fn new(listings: impl IntoIterator<Item = Pairs<S>>) -> Self {
        let streams = allocated(listings.into_iter().map(Pairs::into_inner).collect_in(Global));
        MergeAll { rows: allocated(zerotrie_sets::MergeAll::new(Global, streams)) }
    }

    /// Moves to the next key, and returns whether there is one.
    ///
    /// ```
    /// use zerotrie::ZeroTrieSimpleAscii;
    /// use zerotrie::sets::MergeAll;
    ///
    /// let trie = ZeroTrieSimpleAscii::from_bytes(b"");
    /// assert!(!MergeAll::new([trie.stream_sorted(..)]).advance());
    /// ```
    pub fn advance(&mut self) -> bool {
        allocated(self.rows.advance())
    }

    /// Returns the current key.
    ///
    /// ```
    /// use zerotrie::ZeroTrieSimpleAscii;
    /// use zerotrie::sets::MergeAll;
    ///
    /// let trie = ZeroTrieSimpleAscii::from_bytes(b"in\x81");
    /// let mut rows = MergeAll::new([trie.stream_sorted(..)]);
    /// rows.advance();
    /// assert_eq!(rows.key(), b"in");
    /// ```
    pub fn key(&self) -> &[u8] {
        self.rows.key()
    }

    /// Returns the value that a listing has for the current key. They are numbered from 0 on.
    ///
    /// ```
    /// use zerotrie::ZeroTrieSimpleAscii;
    /// use zerotrie::sets::MergeAll;
    ///
    /// let trie = ZeroTrieSimpleAscii::from_bytes(b"in\x81");
    /// let mut rows = MergeAll::new([trie.stream_sorted(..)]);
    /// rows.advance();
    /// assert_eq!(rows.value(0), Some(1));
    /// ```
    pub fn value(&self, listing: usize) -> Option<usize> {
        self.rows.value(listing)
    }

    /// Returns the value of the first listing that has the current key.
    ///
    /// ```
    /// use zerotrie::ZeroTrieSimpleAscii;
    /// use zerotrie::sets::MergeAll;
    ///
    /// let trie = ZeroTrieSimpleAscii::from_bytes(b"in\x81");
    /// let mut rows = MergeAll::new([trie.stream_sorted(..)]);
    /// rows.advance();
    /// assert_eq!(rows.first(), Some(1));
    /// ```
    pub fn first(&self) -> Option<usize> {
        self.rows.first()
    }

    /// Returns the value of the last listing that has the current key.
    ///
    /// ```
    /// use zerotrie::ZeroTrieSimpleAscii;
    /// use zerotrie::sets::MergeAll;
    ///
    /// let trie = ZeroTrieSimpleAscii::from_bytes(b"in\x81");
    /// let mut rows = MergeAll::new([trie.stream_sorted(..)]);
    /// rows.advance();
    /// assert_eq!(rows.last(), Some(1));
    /// ```
    pub fn last(&self) -> Option<usize> {
        self.rows.last()
    }

    /// Returns the value that a set operation has for the current key: what the rule makes of the
    /// values of the listings that have the key, or `None` if the operation leaves the key out.
    ///
    /// ```
    /// use zerotrie::ZeroTrieSimpleAscii;
    /// use zerotrie::sets::{MergeAll, Rule, RuleError, Selection};
    ///
    /// let trie = ZeroTrieSimpleAscii::from_bytes(b"in\x81");
    /// let mut rows = MergeAll::new([trie.stream_sorted(..), trie.stream_sorted(..)]);
    /// rows.advance();
    /// assert_eq!(rows.selected(Selection::Intersection, Rule::Sum), Ok(Some(2)));
    /// assert_eq!(rows.selected(Selection::Difference, Rule::Sum), Ok(None));
    /// assert_eq!(rows.selected(Selection::Union, Rule::Refuse), Err(RuleError::SeveralValues));
    /// ```
    pub fn selected(&self, selection: Selection, rule: Rule) -> Result<Option<usize>, RuleError> {
        self.rows.selected(selection, rule)
    }
}

impl<S: PairStream> fmt::Debug for MergeAll<S> {
    fn fmt(&self, f: &mut fmt::Formatter<'_>) -> fmt::Result {
        f.debug_struct("MergeAll").finish_non_exhaustive()
    }
}

/// Lists the keys of two listings in ascending order, each once, with the value that each listing
/// has for it. [`Pairs::merge`] makes it.
///
/// ```
/// use zerotrie::{Pairs, ZeroTrieSimpleAscii};
///
/// let trie = ZeroTrieSimpleAscii::try_from_iter([("in", 1), ("on", 2)])?;
/// let list = Pairs::from_sorted_slice(&[(b"on", 3)]).unwrap();
/// let mut rows = trie.stream_sorted(..).merge(list);
/// assert!(rows.advance());
/// assert_eq!((rows.key(), rows.first(), rows.second()), (b"in".as_slice(), Some(1), None));
/// assert!(rows.advance());
/// assert_eq!((rows.key(), rows.first(), rows.second()), (b"on".as_slice(), Some(2), Some(3)));
/// # Ok::<(), zerotrie::ZeroTrieBuildError>(())
/// ```
#[must_use = "a listing does nothing until it is read"]
#[derive(Clone)]
pub struct Merge<S: PairStream, T: PairStream> {
    rows: zerotrie_sets::Merge<S, T>,
}

impl<S: PairStream, T: PairStream> Merge<S, T> {
    /// Moves to the next key, and returns whether there is one.
    ///
    /// ```
    /// use zerotrie::ZeroTrieSimpleAscii;
    ///
    /// let trie = ZeroTrieSimpleAscii::from_bytes(b"");
    /// assert!(!trie.stream_sorted(..).merge(trie.stream_sorted(..)).advance());
    /// ```
    pub fn advance(&mut self) -> bool {
        allocated(self.rows.advance())
    }

    /// Returns the current key.
    ///
    /// ```
    /// use zerotrie::ZeroTrieSimpleAscii;
    ///
    /// let trie = ZeroTrieSimpleAscii::from_bytes(b"in\x81");
    /// let mut rows = trie.stream_sorted(..).merge(trie.stream_sorted("j"..));
    /// rows.advance();
    /// assert_eq!(rows.key(), b"in");
    /// ```
    pub fn key(&self) -> &[u8] {
        self.rows.key()
    }

    /// Returns the value that the first listing has for the current key.
    ///
    /// ```
    /// use zerotrie::ZeroTrieSimpleAscii;
    ///
    /// let trie = ZeroTrieSimpleAscii::from_bytes(b"in\x81");
    /// let mut rows = trie.stream_sorted(..).merge(trie.stream_sorted("j"..));
    /// rows.advance();
    /// assert_eq!(rows.first(), Some(1));
    /// ```
    pub fn first(&self) -> Option<usize> {
        self.rows.first()
    }

    /// Returns the value that the second listing has for the current key.
    ///
    /// ```
    /// use zerotrie::ZeroTrieSimpleAscii;
    ///
    /// let trie = ZeroTrieSimpleAscii::from_bytes(b"in\x81");
    /// let mut rows = trie.stream_sorted(..).merge(trie.stream_sorted("j"..));
    /// rows.advance();
    /// assert_eq!(rows.second(), None);
    /// ```
    pub fn second(&self) -> Option<usize> {
        self.rows.second()
    }
}

impl<S: PairStream, T: PairStream> fmt::Debug for Merge<S, T> {
    fn fmt(&self, f: &mut fmt::Formatter<'_>) -> fmt::Result {
        f.debug_struct("Merge").finish_non_exhaustive()
    }
}

impl<S: PairStream> Pairs<S> {
    /// Merges two listings whose keys ascend, as sorted listings do.
    ///
    /// ```
    /// use zerotrie::{ZeroTriePerfectHash, ZeroTrieSimpleAscii};
    ///
    /// let first = ZeroTriePerfectHash::try_from_iter([("in", 1)])?;
    /// let second = ZeroTrieSimpleAscii::try_from_iter([("in", 5)])?;
    /// let mut rows = first.stream_sorted(..).merge(second.stream_sorted(..));
    /// assert!(rows.advance());
    /// assert_eq!((rows.first(), rows.second()), (Some(1), Some(5)));
    /// # Ok::<(), zerotrie::ZeroTrieBuildError>(())
    /// ```
    pub fn merge<T: PairStream>(self, other: Pairs<T>) -> Merge<S, T> {
        Merge { rows: zerotrie_sets::Merge::new(self.into_inner(), other.into_inner()) }
    }
}

impl<'a, 'k> Pairs<SortedSlice<'a, 'k>> {
    /// Lists the pairs of a slice, or returns `None` if its keys do not ascend by their bytes.
    ///
    /// ```
    /// use zerotrie::{Pairs, ZeroTrieSimpleAscii};
    /// use zerotrie::sets::Keep;
    ///
    /// let trie = ZeroTrieSimpleAscii::try_from_iter([("in", 1), ("on", 2)])?;
    /// let more = Pairs::from_sorted_slice(&[(b"on", 3), (b"to", 4)]).unwrap();
    /// let all = trie.stream_sorted(..).union(more, Keep::Last);
    /// assert_eq!(all.values().collect::<Vec<_>>(), [1, 3, 4]);
    /// # Ok::<(), zerotrie::ZeroTrieBuildError>(())
    /// ```
    pub fn from_sorted_slice(pairs: &'a [(&'k [u8], usize)]) -> Option<Self> {
        SortedSlice::new(pairs).map(Pairs::new)
    }
}
