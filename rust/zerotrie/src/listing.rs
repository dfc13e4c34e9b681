//! Listings: iterators whose pairs can also be read without a copy of the key.

use crate::any::last;
use crate::by_kind;
use crate::rstd::alloc::{AllocError, Global};
use crate::zerotrie_core::{self, PairStream, TrieKind, ZeroTrieWithOptions};
use crate::zerotrie_search::{Automaton, Fuzzy, KeyRange, ZeroTrieNearest, ZeroTrieSearch, ZeroTrieSorted};
use crate::zerotrie_sets::{Change, Combined, Diff, Keep, Operation};
use alloc::alloc::{Layout, handle_alloc_error};
use alloc::string::String;
use alloc::vec::Vec;
use core::fmt;
use core::iter::FusedIterator;
use core::ops::Bound;

/// Returns what a call of the library returns. If an allocation failed, ends the program as a `Vec`
/// does.
pub(crate) fn allocated<T>(result: Result<T, AllocError>) -> T {
    result.unwrap_or_else(|AllocError| handle_alloc_error(Layout::new::<u8>()))
}

/// Returns a key as a string. The keys of valid tries over ASCII are strings. What malformed bytes
/// list may be none, and is then replaced in part.
pub(crate) fn string(key: Vec<u8>) -> String {
    String::from_utf8(key).unwrap_or_else(|no_text| String::from_utf8_lossy(no_text.as_bytes()).into_owned())
}

/// A listing of pairs.
///
/// As an iterator it copies each key. [`advance`](Pairs::advance), [`key`](Pairs::key) and
/// [`value`](Pairs::value) list the same pairs without a copy:
///
/// ```
/// use zerotrie::ZeroTrieSimpleAscii;
///
/// let trie = ZeroTrieSimpleAscii::try_from_iter([("in", 1), ("into", 2)])?;
/// let mut pairs = trie.stream();
/// while pairs.advance() {
///     println!("{:?} {}", pairs.key(), pairs.value());
/// }
/// assert_eq!(trie.stream().map(|(_key, value)| value).sum::<usize>(), 3);
/// # Ok::<(), zerotrie::ZeroTrieBuildError>(())
/// ```
#[must_use = "a listing does nothing until it is read"]
#[derive(Clone)]
pub struct Pairs<S> {
    pairs: S,
}

impl<S: PairStream> Pairs<S> {
    /// Lists what a stream of the library lists.
    pub(crate) fn new(pairs: S) -> Self {
        Pairs { pairs }
    }

    /// Moves to the next pair, and returns whether there is one.
    ///
    /// ```
    /// use zerotrie::ZeroTrieSimpleAscii;
    ///
    /// let trie = ZeroTrieSimpleAscii::try_from_iter([("in", 1)])?;
    /// let mut pairs = trie.stream();
    /// assert!(pairs.advance());
    /// assert!(!pairs.advance());
    /// # Ok::<(), zerotrie::ZeroTrieBuildError>(())
    /// ```
    #[inline]
    pub fn advance(&mut self) -> bool {
        allocated(self.pairs.advance())
    }

    /// Returns the key of the current pair: of the one that the last call of
    /// [`advance`](Pairs::advance) moved to.
    ///
    /// ```
    /// use zerotrie::ZeroTrieSimpleAscii;
    ///
    /// let trie = ZeroTrieSimpleAscii::try_from_iter([("in", 1)])?;
    /// let mut pairs = trie.stream();
    /// pairs.advance();
    /// assert_eq!(pairs.key(), b"in");
    /// # Ok::<(), zerotrie::ZeroTrieBuildError>(())
    /// ```
    #[inline]
    pub fn key(&self) -> &[u8] {
        self.pairs.key()
    }

    /// Returns the value of the current pair.
    ///
    /// ```
    /// use zerotrie::ZeroTrieSimpleAscii;
    ///
    /// let trie = ZeroTrieSimpleAscii::try_from_iter([("in", 1)])?;
    /// let mut pairs = trie.stream();
    /// pairs.advance();
    /// assert_eq!(pairs.value(), 1);
    /// # Ok::<(), zerotrie::ZeroTrieBuildError>(())
    /// ```
    #[inline]
    pub fn value(&self) -> usize {
        self.pairs.value()
    }

    /// Lists the values alone. Copies no key.
    ///
    /// ```
    /// use zerotrie::ZeroTrieSimpleAscii;
    ///
    /// let trie = ZeroTrieSimpleAscii::try_from_iter([("in", 1), ("into", 2)])?;
    /// assert_eq!(trie.stream_prefix("int").values().collect::<Vec<_>>(), [2]);
    /// # Ok::<(), zerotrie::ZeroTrieBuildError>(())
    /// ```
    pub fn values(self) -> Values<S> {
        Values(self)
    }

    /// Combines two listings whose keys ascend, as those of sorted listings and searches do.
    ///
    /// ```
    /// use zerotrie::ZeroTriePerfectHash;
    /// use zerotrie::sets::Operation;
    ///
    /// let first = ZeroTriePerfectHash::try_from_iter([("in", 1), ("on", 2)])?;
    /// let second = ZeroTriePerfectHash::try_from_iter([("in", 5)])?;
    /// let some = first.stream_sorted("a".."z").combine(second.stream_sorted(..), Operation::Difference);
    /// assert_eq!(some.collect::<Vec<_>>(), [(b"on".to_vec(), 2)]);
    /// # Ok::<(), zerotrie::ZeroTrieBuildError>(())
    /// ```
    pub fn combine<T: PairStream>(self, other: Pairs<T>, operation: Operation) -> Pairs<Combined<S, T>> {
        Pairs::new(Combined::new(self.pairs, other.pairs, operation))
    }

    /// Lists the keys of either listing, each once, of two whose keys ascend.
    ///
    /// ```
    /// use zerotrie::ZeroTriePerfectHash;
    /// use zerotrie::sets::Keep;
    ///
    /// let first = ZeroTriePerfectHash::try_from_iter([("in", 1), ("on", 2)])?;
    /// let second = ZeroTriePerfectHash::try_from_iter([("in", 5), ("to", 6)])?;
    /// let all = first.stream_sorted(..).union(second.stream_sorted(..), Keep::Last);
    /// assert_eq!(all.map(|(_key, value)| value).collect::<Vec<_>>(), [5, 2, 6]);
    /// # Ok::<(), zerotrie::ZeroTrieBuildError>(())
    /// ```
    pub fn union<T: PairStream>(self, other: Pairs<T>, keep: Keep) -> Pairs<Combined<S, T>> {
        self.combine(other, Operation::Union(keep))
    }

    /// Lists what changed from this listing to another one, if the keys of both ascend.
    ///
    /// ```
    /// use zerotrie::ZeroTriePerfectHash;
    /// use zerotrie::sets::Change;
    ///
    /// let old = ZeroTriePerfectHash::try_from_iter([("in", 1), ("on", 2)])?;
    /// let new = ZeroTriePerfectHash::try_from_iter([("in", 1), ("on", 3)])?;
    /// let mut changes = old.stream_sorted(..).diff(new.stream_sorted(..));
    /// assert_eq!(changes.next(), Some((b"on".to_vec(), Change::Changed(2, 3))));
    /// # Ok::<(), zerotrie::ZeroTrieBuildError>(())
    /// ```
    pub fn diff<T: PairStream>(self, other: Pairs<T>) -> Changes<S, T> {
        Changes { changes: Diff::new(self.pairs, other.pairs) }
    }

    /// Returns what the library lists.
    pub(crate) fn into_inner(self) -> S {
        self.pairs
    }
}

impl<S: PairStream> Iterator for Pairs<S> {
    type Item = (Vec<u8>, usize);

    fn next(&mut self) -> Option<Self::Item> {
        self.advance().then(|| (self.key().to_vec(), self.value()))
    }
}

// after the last pair there is none, as in each listing of the library
impl FusedIterator for ZeroTrieIterator<'_> {}
impl FusedIterator for Sorted<'_, '_> {}
impl<T: Automaton> FusedIterator for Matches<'_, '_, T> {}
impl<T: Fuzzy> FusedIterator for Nearest<'_, T> {}

impl<S> fmt::Debug for Pairs<S> {
    fn fmt(&self, f: &mut fmt::Formatter<'_>) -> fmt::Result {
        f.debug_struct("Pairs").finish_non_exhaustive()
    }
}

/// The pairs of a trie, or those whose keys begin with a prefix, in the order of its bytes.
pub type ZeroTrieIterator<'a> = Pairs<zerotrie_core::ZeroTrieStream<'a>>;

impl<'a> ZeroTrieIterator<'a> {
    /// Lists the pairs of a trie.
    #[inline]
    pub(crate) fn of(kind: TrieKind, bytes: &'a [u8]) -> Self {
        Pairs::new(by_kind!(kind, stream_of::<_>(bytes)))
    }

    /// Lists the pairs of a trie whose keys begin with a prefix.
    #[inline]
    pub(crate) fn with_prefix(kind: TrieKind, bytes: &'a [u8], prefix: &[u8]) -> Self {
        Pairs::new(allocated(by_kind!(kind, stream_prefix::<_>(bytes, prefix))))
    }

    /// Lists the pairs of a trie after a key, of those whose keys begin with a prefix.
    #[inline]
    pub(crate) fn after(kind: TrieKind, bytes: &'a [u8], prefix: &[u8], key: &[u8]) -> Self {
        Pairs::new(allocated(by_kind!(kind, stream_after::<_>(bytes, prefix, key))))
    }

    /// Passes over the pairs to come whose keys begin with the first `depth` bytes of the current
    /// key.
    ///
    /// ```
    /// use zerotrie::ZeroTrieSimpleAscii;
    ///
    /// let trie = ZeroTrieSimpleAscii::try_from_iter([("in", 1), ("into", 2), ("on", 3)])?;
    /// let mut pairs = trie.stream();
    /// pairs.advance();
    /// pairs.skip_below(2);
    /// assert_eq!(pairs.next(), Some((b"on".to_vec(), 3)));
    /// # Ok::<(), zerotrie::ZeroTrieBuildError>(())
    /// ```
    pub fn skip_below(&mut self, depth: usize) {
        self.pairs.skip(depth);
    }
}

fn stream_of<K: ZeroTrieWithOptions>(bytes: &[u8]) -> zerotrie_core::ZeroTrieStream<'_> {
    zerotrie_core::ZeroTrieStream::new::<K>(Global, bytes)
}

fn stream_prefix<'a, K: ZeroTrieWithOptions>(
    bytes: &'a [u8],
    prefix: &[u8],
) -> Result<zerotrie_core::ZeroTrieStream<'a>, AllocError> {
    zerotrie_core::ZeroTrieStream::with_prefix::<K>(Global, bytes, prefix)
}

fn stream_after<'a, K: ZeroTrieWithOptions>(
    bytes: &'a [u8],
    prefix: &[u8],
    key: &[u8],
) -> Result<zerotrie_core::ZeroTrieStream<'a>, AllocError> {
    zerotrie_core::ZeroTrieStream::after::<K>(Global, bytes, prefix, key)
}

/// A listing in the order of bytes, as that of `Sorted`.
#[derive(Clone)]
pub struct SortedPairs<'a, 'p> {
    pairs: ZeroTrieSorted<'a, 'p>,
    kind: TrieKind,
    bytes: &'a [u8],
    /// Between which bounds pairs are left for the end.
    bounds: KeyRange<'p>,
    is_begun: bool,
    is_ended: bool,
    /// The key of the pair that was listed last from the end: those to come are below it.
    behind: Option<Vec<u8>>,
}

impl PairStream for SortedPairs<'_, '_> {
    fn advance(&mut self) -> Result<bool, AllocError> {
        self.is_begun = true;
        self.is_ended = !self.pairs.advance()? || self.behind.as_deref().is_some_and(|behind| self.pairs.key() >= behind);
        Ok(!self.is_ended)
    }

    fn key(&self) -> &[u8] {
        self.pairs.key()
    }

    fn value(&self) -> usize {
        self.pairs.value()
    }
}

impl DoubleEndedIterator for Sorted<'_, '_> {
    /// Lists the last of the pairs that are left. It costs about two look-ups.
    fn next_back(&mut self) -> Option<Self::Item> {
        let SortedPairs { pairs, kind, bytes, bounds, is_begun, is_ended, behind } = &self.pairs;
        if *is_ended {
            return None;
        }
        let from = if *is_begun { Bound::Excluded(pairs.key()) } else { bounds.from };
        let to = behind.as_deref().map_or(bounds.to, Bound::Excluded);
        let pair = last(*kind, bytes, KeyRange { from, to });
        // no key is below the empty one, so the end stays the end
        self.pairs.behind = Some(pair.as_ref().map_or(Vec::new(), |(key, _)| key.clone()));
        pair
    }
}

/// The pairs of a trie between two bounds, in ascending order of bytes.
pub type Sorted<'a, 'p> = Pairs<SortedPairs<'a, 'p>>;

impl<'a, 'p> Sorted<'a, 'p> {
    /// Lists the pairs of a trie between two bounds.
    pub(crate) fn of(kind: TrieKind, bytes: &'a [u8], bounds: KeyRange<'p>) -> Self {
        let pairs = allocated(by_kind!(kind, sorted_of::<_>(bytes, bounds.from, bounds.to)));
        Pairs::new(SortedPairs { pairs, kind, bytes, bounds, is_begun: false, is_ended: false, behind: None })
    }

    /// Passes over the pairs to come whose keys begin with the first `depth` bytes of the current key.
    ///
    /// ```
    /// use zerotrie::ZeroTriePerfectHash;
    ///
    /// let trie = ZeroTriePerfectHash::try_from_iter([("in", 1), ("into", 2), ("on", 3)])?;
    /// let mut pairs = trie.stream_sorted(..);
    /// pairs.advance();
    /// pairs.skip_below(2);
    /// assert_eq!(pairs.next(), Some((b"on".to_vec(), 3)));
    /// # Ok::<(), zerotrie::ZeroTrieBuildError>(())
    /// ```
    ///
    /// `next_back` lists them all the same.
    pub fn skip_below(&mut self, depth: usize) {
        self.pairs.pairs.skip(depth);
    }
}

fn sorted_of<'a, 'p, K: ZeroTrieWithOptions>(
    bytes: &'a [u8],
    from: Bound<&[u8]>,
    to: Bound<&'p [u8]>,
) -> Result<ZeroTrieSorted<'a, 'p>, AllocError> {
    ZeroTrieSorted::new::<K>(Global, bytes, from, to)
}

/// The pairs of a trie between two bounds, in descending order of bytes.
///
/// ```
/// use zerotrie::ZeroTriePerfectHash;
///
/// let trie = ZeroTriePerfectHash::try_from_iter([("in", 1), ("on", 2), ("to", 3)])?;
/// let last: Vec<_> = trie.reversed(..).take(2).collect();
/// assert_eq!(last, [(b"to".to_vec(), 3), (b"on".to_vec(), 2)]);
/// # Ok::<(), zerotrie::ZeroTrieBuildError>(())
/// ```
#[must_use = "a listing does nothing until it is read"]
#[derive(Clone, Debug)]
pub struct Reversed<'a, 'p> {
    kind: TrieKind,
    bytes: &'a [u8],
    bounds: KeyRange<'p>,
    /// The key of the pair that was listed last: those to come are below it.
    listed: Option<Vec<u8>>,
}

impl<'a, 'p> Reversed<'a, 'p> {
    /// Lists the pairs of a trie between two bounds.
    pub(crate) fn of(kind: TrieKind, bytes: &'a [u8], bounds: KeyRange<'p>) -> Self {
        Reversed { kind, bytes, bounds, listed: None }
    }
}

impl Iterator for Reversed<'_, '_> {
    type Item = (Vec<u8>, usize);

    #[inline]
    fn next(&mut self) -> Option<Self::Item> {
        let KeyRange { from, to } = self.bounds;
        let to = self.listed.as_deref().map_or(to, Bound::Excluded);
        let pair = last(self.kind, self.bytes, KeyRange { from, to });
        // no key is below the empty one, so the end stays the end
        self.listed = Some(pair.as_ref().map_or(Vec::new(), |(key, _)| key.clone()));
        pair
    }
}

impl FusedIterator for Reversed<'_, '_> {}

impl<T: Automaton> PairStream for ZeroTrieSearch<'_, '_, T> {
    fn advance(&mut self) -> Result<bool, AllocError> {
        ZeroTrieSearch::advance(self)
    }

    fn key(&self) -> &[u8] {
        ZeroTrieSearch::key(self)
    }

    fn value(&self) -> usize {
        ZeroTrieSearch::value(self)
    }
}

/// The pairs that a search finds, in ascending order of bytes. `'p` is the lifetime of an upper bound:
/// `'static` if there is none.
pub type Matches<'a, 'p, T> = Pairs<ZeroTrieSearch<'a, 'p, T>>;

impl<'a, 'p, T: Automaton> Matches<'a, 'p, T> {
    /// Lists the pairs of a trie between two bounds that an automaton accepts.
    pub(crate) fn of(kind: TrieKind, bytes: &'a [u8], from: Bound<&[u8]>, to: Bound<&'p [u8]>, automaton: T) -> Self {
        let pairs = allocated(by_kind!(kind, sorted_of::<_>(bytes, from, to)));
        Pairs::new(ZeroTrieSearch::new(Global, pairs, automaton))
    }

    /// Returns the automaton.
    ///
    /// ```
    /// use zerotrie::ZeroTrieSimpleAscii;
    /// use zerotrie::search::StartsWith;
    ///
    /// let trie = ZeroTrieSimpleAscii::try_from_iter([("in", 1)])?;
    /// assert_eq!(trie.search(StartsWith(b"i")).automaton().0, b"i");
    /// # Ok::<(), zerotrie::ZeroTrieBuildError>(())
    /// ```
    pub fn automaton(&self) -> &T {
        self.pairs.automaton()
    }

    /// Returns the state of the automaton after the current key.
    ///
    /// ```
    /// use zerotrie::ZeroTriePerfectHash;
    /// use zerotrie::search::Levenshtein;
    ///
    /// let trie = ZeroTriePerfectHash::try_from_iter([("on", 2), ("in", 1)])?;
    /// let mut found = trie.search_range("j".., Levenshtein::new(b"in", 1).unwrap());
    /// found.advance();
    /// assert_eq!(found.automaton().distance(found.state()), Some(1));
    /// # Ok::<(), zerotrie::ZeroTrieBuildError>(())
    /// ```
    pub fn state(&self) -> T::State {
        self.pairs.state()
    }
}

impl<T: Fuzzy> PairStream for ZeroTrieNearest<'_, T> {
    fn advance(&mut self) -> Result<bool, AllocError> {
        ZeroTrieNearest::advance(self)
    }

    fn key(&self) -> &[u8] {
        ZeroTrieNearest::key(self)
    }

    fn value(&self) -> usize {
        ZeroTrieNearest::value(self)
    }
}

/// The pairs whose keys few edits make of a word, the nearest first.
pub type Nearest<'a, T> = Pairs<ZeroTrieNearest<'a, T>>;

impl<'a, T: Fuzzy> Nearest<'a, T> {
    /// Lists the pairs of a trie.
    pub(crate) fn of(kind: TrieKind, bytes: &'a [u8], word: T) -> Self {
        Pairs::new(by_kind!(kind, nearest_of::<_, T>(bytes, word)))
    }

    /// Returns how many edits make the current key of the word.
    ///
    /// ```
    /// use zerotrie::ZeroTriePerfectHash;
    /// use zerotrie::search::Levenshtein;
    ///
    /// let trie = ZeroTriePerfectHash::try_from_iter([("on", 2), ("in", 1)])?;
    /// let mut nearest = trie.nearest(Levenshtein::new(b"an", 1).unwrap());
    /// nearest.advance();
    /// assert_eq!((nearest.key(), nearest.distance()), (b"in".as_slice(), 1));
    /// # Ok::<(), zerotrie::ZeroTrieBuildError>(())
    /// ```
    pub fn distance(&self) -> usize {
        self.pairs.distance()
    }
}

fn nearest_of<K: ZeroTrieWithOptions, T: Fuzzy>(bytes: &[u8], word: T) -> ZeroTrieNearest<'_, T> {
    ZeroTrieNearest::new::<K>(Global, bytes, word)
}

/// What is made of two tries, in the order of bytes.
pub type Combination<'a> = Pairs<Combined<SortedPairs<'a, 'static>, SortedPairs<'a, 'static>>>;

/// What changed from one trie to another one.
pub type Difference<'a> = Changes<SortedPairs<'a, 'static>, SortedPairs<'a, 'static>>;

/// What changed from one listing to another, in the order of bytes.
///
/// [`advance`](Changes::advance), [`key`](Changes::key) and [`change`](Changes::change) list the
/// same changes without a copy of the key.
///
/// ```
/// use zerotrie::ZeroTrieSimpleAscii;
/// use zerotrie::sets::Change;
///
/// let old = ZeroTrieSimpleAscii::try_from_iter([("in", 1), ("on", 2)])?;
/// let new = ZeroTrieSimpleAscii::try_from_iter([("in", 1), ("to", 3)])?;
/// let changes: Vec<_> = old.diff(&new).collect();
/// assert_eq!(changes, [(b"on".to_vec(), Change::Removed(2)), (b"to".to_vec(), Change::Added(3))]);
/// # Ok::<(), zerotrie::ZeroTrieBuildError>(())
/// ```
#[must_use = "a listing does nothing until it is read"]
#[derive(Clone)]
pub struct Changes<S: PairStream, T: PairStream> {
    changes: Diff<S, T>,
}

impl<S: PairStream, T: PairStream> Changes<S, T> {
    /// Moves to the next key that changed, and returns whether there is one.
    ///
    /// ```
    /// use zerotrie::ZeroTrieSimpleAscii;
    ///
    /// let trie = ZeroTrieSimpleAscii::try_from_iter([("in", 1)])?;
    /// assert!(!trie.diff(&trie).advance());
    /// # Ok::<(), zerotrie::ZeroTrieBuildError>(())
    /// ```
    pub fn advance(&mut self) -> bool {
        allocated(self.changes.advance())
    }

    /// Returns the current key.
    ///
    /// ```
    /// use zerotrie::{ZeroTrie, ZeroTrieSimpleAscii};
    ///
    /// let old = ZeroTrieSimpleAscii::try_from_iter([("in", 1)])?;
    /// let new = ZeroTrie::try_from_iter([("in", 2)])?;
    /// let mut changes = old.diff(&new);
    /// changes.advance();
    /// assert_eq!(changes.key(), b"in");
    /// # Ok::<(), zerotrie::ZeroTrieBuildError>(())
    /// ```
    pub fn key(&self) -> &[u8] {
        self.changes.key()
    }

    /// Returns how the current key changed.
    ///
    /// ```
    /// use zerotrie::{ZeroTrie, ZeroTrieSimpleAscii};
    /// use zerotrie::sets::Change;
    ///
    /// let old = ZeroTrieSimpleAscii::try_from_iter([("in", 1)])?;
    /// let new = ZeroTrie::try_from_iter([("in", 2)])?;
    /// let mut changes = old.diff(&new);
    /// changes.advance();
    /// assert_eq!(changes.change(), Change::Changed(1, 2));
    /// # Ok::<(), zerotrie::ZeroTrieBuildError>(())
    /// ```
    pub fn change(&self) -> Change {
        self.changes.change()
    }
}

impl<S: PairStream, T: PairStream> Iterator for Changes<S, T> {
    type Item = (Vec<u8>, Change);

    fn next(&mut self) -> Option<Self::Item> {
        self.advance().then(|| (self.key().to_vec(), self.change()))
    }
}

impl<S: PairStream, T: PairStream> fmt::Debug for Changes<S, T> {
    fn fmt(&self, f: &mut fmt::Formatter<'_>) -> fmt::Result {
        f.debug_struct("Changes").finish_non_exhaustive()
    }
}

/// Lists the pairs of a trie over ASCII keys, with keys as strings.
#[must_use = "a listing does nothing until it is read"]
#[derive(Clone, Debug)]
pub struct ZeroTrieStringIterator<'a>(pub(crate) ZeroTrieIterator<'a>);

impl FusedIterator for ZeroTrieStringIterator<'_> {}

impl Iterator for ZeroTrieStringIterator<'_> {
    type Item = (String, usize);

    fn next(&mut self) -> Option<Self::Item> {
        self.0.next().map(|(key, value)| (string(key), value))
    }
}

/// Lists the keys of a trie.
#[must_use = "a listing does nothing until it is read"]
#[derive(Clone, Debug)]
pub struct ZeroTrieKeys<'a>(pub(crate) ZeroTrieIterator<'a>);

impl FusedIterator for ZeroTrieKeys<'_> {}

impl Iterator for ZeroTrieKeys<'_> {
    type Item = Vec<u8>;

    fn next(&mut self) -> Option<Vec<u8>> {
        self.0.next().map(|(key, _value)| key)
    }
}

/// Lists the keys of a trie over ASCII keys, as strings.
#[must_use = "a listing does nothing until it is read"]
#[derive(Clone, Debug)]
pub struct ZeroTrieStringKeys<'a>(pub(crate) ZeroTrieIterator<'a>);

impl FusedIterator for ZeroTrieStringKeys<'_> {}

impl Iterator for ZeroTrieStringKeys<'_> {
    type Item = String;

    fn next(&mut self) -> Option<String> {
        self.0.next().map(|(key, _value)| string(key))
    }
}

/// Lists the values of a listing of pairs. Copies no key.
#[must_use = "a listing does nothing until it is read"]
#[derive(Clone, Debug)]
pub struct Values<S>(Pairs<S>);

impl<S: PairStream> Iterator for Values<S> {
    type Item = usize;

    fn next(&mut self) -> Option<usize> {
        self.0.advance().then(|| self.0.value())
    }
}

impl FusedIterator for ZeroTrieValues<'_> {}

/// Lists the values of a trie.
pub type ZeroTrieValues<'a> = Values<zerotrie_core::ZeroTrieStream<'a>>;
