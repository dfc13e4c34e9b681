//! The calls that all types of tries have beyond the crate's own, by the kind and the bytes.

/// Gives a type of tries its calls. `$bound` is `?Sized` where the type takes unsized stores.
macro_rules! calls {
    ($name:ident, $($bound:tt)*) => {
        impl<Store: AsRef<[u8]> + $($bound)*> $name<Store> {
            /// Returns whether the trie has a key.
            ///
            /// ```
            #[doc = concat!("use zerotrie::", stringify!($name), ";")]
            ///
            #[doc = concat!("let trie = ", stringify!($name), "::try_from_iter([(\"in\", 1), (\"into\", 2)])?;")]
            /// assert!(trie.contains_key("into"));
            /// assert!(!trie.contains_key("int"));
            /// # Ok::<(), zerotrie::ZeroTrieBuildError>(())
            /// ```
            pub fn contains_key<K: AsRef<[u8]>>(&self, key: K) -> bool {
                self.get(key).is_some()
            }

            /// Returns a reader for many keys: it remembers the targets of the first branch, and costs four
            /// kilobytes.
            ///
            /// ```
            #[doc = concat!("use zerotrie::", stringify!($name), ";")]
            ///
            #[doc = concat!("let trie = ", stringify!($name), "::try_from_iter([(\"in\", 1), (\"into\", 2)])?;")]
            /// let mut look_ups = trie.look_ups();
            /// assert_eq!(look_ups.get("in"), Some(1));
            /// # Ok::<(), zerotrie::ZeroTrieBuildError>(())
            /// ```
            pub fn look_ups(&self) -> LookUps<'_> {
                LookUps::of(self.kind(), self.as_bytes())
            }

            /// Counts the pairs. Copies no key, and does not allocate.
            ///
            /// ```
            #[doc = concat!("use zerotrie::", stringify!($name), ";")]
            ///
            #[doc = concat!("let trie = ", stringify!($name), "::try_from_iter([(\"in\", 1), (\"into\", 2)])?;")]
            /// assert_eq!(trie.count(), 2);
            /// # Ok::<(), zerotrie::ZeroTrieBuildError>(())
            /// ```
            pub fn count(&self) -> usize {
                by_kind!(self.kind(), zerotrie_core::count_pairs::<_>(self.as_bytes()))
            }

            /// Lists the pairs, also without a copy of each key.
            ///
            /// ```
            #[doc = concat!("use zerotrie::", stringify!($name), ";")]
            ///
            #[doc = concat!("let trie = ", stringify!($name), "::try_from_iter([(\"in\", 1), (\"into\", 2)])?;")]
            /// let mut pairs = trie.stream();
            /// assert!(pairs.advance());
            /// assert_eq!((pairs.key(), pairs.value()), (b"in".as_slice(), 1));
            /// # Ok::<(), zerotrie::ZeroTrieBuildError>(())
            /// ```
            pub fn stream(&self) -> ZeroTrieIterator<'_> {
                ZeroTrieIterator::of(self.kind(), self.as_bytes())
            }

            /// Lists the pairs whose keys begin with a prefix, also without a copy of each key.
            ///
            /// ```
            #[doc = concat!("use zerotrie::", stringify!($name), ";")]
            ///
            #[doc = concat!("let trie = ", stringify!($name), "::try_from_iter([(\"in\", 1), (\"into\", 2), (\"on\", 3)])?;")]
            /// let mut pairs = trie.stream_prefix("in");
            /// assert!(pairs.advance());
            /// assert!(pairs.advance());
            /// assert!(!pairs.advance());
            /// # Ok::<(), zerotrie::ZeroTrieBuildError>(())
            /// ```
            pub fn stream_prefix<K: AsRef<[u8]>>(&self, prefix: K) -> ZeroTrieIterator<'_> {
                ZeroTrieIterator::with_prefix(self.kind(), self.as_bytes(), prefix.as_ref())
            }

            /// Lists the pairs that come after a key, of those whose keys begin with a prefix. Lists none if no
            /// such pair has the key.
            ///
            /// ```
            #[doc = concat!("use zerotrie::", stringify!($name), ";")]
            ///
            #[doc = concat!("let trie = ", stringify!($name), "::try_from_iter([(\"in\", 1), (\"into\", 2)])?;")]
            /// assert_eq!(trie.stream_after("i", "in").values().collect::<Vec<_>>(), [2]);
            /// # Ok::<(), zerotrie::ZeroTrieBuildError>(())
            /// ```
            ///
            /// So a program can continue a listing from the last key that it read, at the cost of a look-up.
            pub fn stream_after<P: AsRef<[u8]>, K: AsRef<[u8]>>(&self, prefix: P, key: K) -> ZeroTrieIterator<'_> {
                ZeroTrieIterator::after(self.kind(), self.as_bytes(), prefix.as_ref(), key.as_ref())
            }

            /// Lists the values, in the order of the keys. Copies no key.
            ///
            /// ```
            #[doc = concat!("use zerotrie::", stringify!($name), ";")]
            ///
            #[doc = concat!("let trie = ", stringify!($name), "::try_from_iter([(\"in\", 1), (\"into\", 2)])?;")]
            /// assert_eq!(trie.values().sum::<usize>(), 3);
            /// # Ok::<(), zerotrie::ZeroTrieBuildError>(())
            /// ```
            pub fn values(&self) -> ZeroTrieValues<'_> {
                self.stream().values()
            }

            /// Returns the length of the longest key that a text begins with, and its value.
            ///
            /// ```
            #[doc = concat!("use zerotrie::", stringify!($name), ";")]
            ///
            #[doc = concat!("let trie = ", stringify!($name), "::try_from_iter([(\"in\", 1), (\"into\", 2)])?;")]
            /// assert_eq!(trie.longest_prefix("intoxicated"), Some((4, 2)));
            /// assert_eq!(trie.longest_prefix("int"), Some((2, 1)));
            /// assert_eq!(trie.longest_prefix("on"), None);
            /// # Ok::<(), zerotrie::ZeroTrieBuildError>(())
            /// ```
            pub fn longest_prefix<K: AsRef<[u8]>>(&self, text: K) -> Option<(usize, usize)> {
                by_kind!(self.kind(), zerotrie_core::longest_prefix::<_>(self.as_bytes(), text.as_ref()))
            }

            /// Returns the same of the keys behind which the text ends or has one of some delimiters.
            ///
            /// ```
            #[doc = concat!("use zerotrie::", stringify!($name), ";")]
            ///
            #[doc = concat!("let trie = ", stringify!($name), "::try_from_iter([(\"en\", 1), (\"en-us\", 2)])?;")]
            /// assert_eq!(trie.longest_prefix_at("en-us-posix", "-"), Some((5, 2)));
            /// assert_eq!(trie.longest_prefix_at("en-usa", "-"), Some((2, 1)));
            /// # Ok::<(), zerotrie::ZeroTrieBuildError>(())
            /// ```
            pub fn longest_prefix_at<K: AsRef<[u8]>, D: AsRef<[u8]>>(&self, text: K, delimiters: D) -> Option<(usize, usize)> {
                let (text, delimiters) = (text.as_ref(), delimiters.as_ref());
                by_kind!(self.kind(), zerotrie_core::longest_prefix_at::<_>(self.as_bytes(), text, delimiters))
            }

            /// Lists the lengths of all keys that a text begins with, and their values.
            ///
            /// ```
            #[doc = concat!("use zerotrie::", stringify!($name), ";")]
            ///
            #[doc = concat!("let trie = ", stringify!($name), "::try_from_iter([(\"in\", 1), (\"into\", 2)])?;")]
            /// let found: Vec<_> = trie.common_prefixes("intoxicated").collect();
            /// assert_eq!(found, [(2, 1), (4, 2)]);
            /// # Ok::<(), zerotrie::ZeroTrieBuildError>(())
            /// ```
            pub fn common_prefixes<'t, K: AsRef<[u8]> + ?Sized>(&self, text: &'t K) -> CommonPrefixes<'_, 't> {
                by_kind!(self.kind(), CommonPrefixes::new::<_>(self.as_bytes(), text.as_ref()))
            }

            /// Lists the pairs whose keys an automaton accepts, in ascending order of bytes, whatever the kind: see
            /// [`search`](crate::search). Keys that begin as none that is accepted are passed over.
            ///
            /// ```
            #[doc = concat!("use zerotrie::", stringify!($name), ";")]
            /// use zerotrie::search::Subsequence;
            ///
            #[doc = concat!("let trie = ", stringify!($name), "::try_from_iter([(\"in\", 1), (\"into\", 2)])?;")]
            /// let found: Vec<_> = trie.search(Subsequence(b"io")).collect();
            /// assert_eq!(found, [(b"into".to_vec(), 2)]);
            /// # Ok::<(), zerotrie::ZeroTrieBuildError>(())
            /// ```
            pub fn search<T: Automaton>(&self, automaton: T) -> Matches<'_, 'static, T> {
                self.search_range(.., automaton)
            }

            /// Lists the pairs whose keys begin with a prefix, as the kind compares bytes, and which, as a whole, an automaton
            /// accepts.
            ///
            /// ```
            #[doc = concat!("use zerotrie::", stringify!($name), ";")]
            /// use zerotrie::search::Glob;
            ///
            #[doc = concat!("let trie = ", stringify!($name), "::try_from_iter([(\"bait\", 1), (\"bat\", 2), (\"cat\", 3)])?;")]
            /// let found: Vec<_> = trie.search_prefix("ba", Glob::new(b"?at").unwrap()).collect();
            /// assert_eq!(found, [(b"bat".to_vec(), 2)]);
            /// # Ok::<(), zerotrie::ZeroTrieBuildError>(())
            /// ```
            pub fn search_prefix<'p, K: AsRef<[u8]> + ?Sized, T: Automaton>(
                &self,
                prefix: &'p K,
                automaton: T,
            ) -> Matches<'_, 'static, Both<KindPrefix<'p>, T>> {
                self.search(Both(KindPrefix { kind: self.kind(), prefix: prefix.as_ref() }, automaton))
            }

            /// Lists the pairs between two bounds whose keys an automaton accepts.
            ///
            /// ```
            #[doc = concat!("use zerotrie::", stringify!($name), ";")]
            /// use zerotrie::search::Glob;
            ///
            #[doc = concat!("let trie = ", stringify!($name), "::try_from_iter([(\"to\", 3), (\"on\", 2), (\"in\", 1)])?;")]
            /// let found = trie.search_range("j"..="to", Glob::new(b"?[no]").unwrap());
            /// assert_eq!(found.values().collect::<Vec<_>>(), [2, 3]);
            /// # Ok::<(), zerotrie::ZeroTrieBuildError>(())
            /// ```
            ///
            /// Bounds are ranges of strings or bytes, `..`, or a pair of `Bound`.
            pub fn search_range<'p, T: Automaton>(
                &self,
                bounds: impl Into<KeyRange<'p>>,
                automaton: T,
            ) -> Matches<'_, 'p, T> {
                let KeyRange { from, to } = bounds.into();
                Matches::of(self.kind(), self.as_bytes(), from, to, automaton)
            }

            /// Lists the pairs whose keys come after one, begin with a prefix as the kind compares bytes, and are accepted as a
            /// whole by an automaton. So a program continues a search behind the last key that it read.
            ///
            /// ```
            #[doc = concat!("use zerotrie::", stringify!($name), ";")]
            /// use zerotrie::search::Glob;
            ///
            #[doc = concat!("let trie = ", stringify!($name), "::try_from_iter([(\"bat\", 1), (\"bet\", 2), (\"cat\", 3)])?;")]
            /// let found = trie.search_after("b", "bat", Glob::new(b"?[ae]t").unwrap());
            /// assert_eq!(found.values().collect::<Vec<_>>(), [2]);
            /// # Ok::<(), zerotrie::ZeroTrieBuildError>(())
            /// ```
            pub fn search_after<'p, P: AsRef<[u8]> + ?Sized, K: AsRef<[u8]>, T: Automaton>(
                &self,
                prefix: &'p P,
                key: K,
                automaton: T,
            ) -> Matches<'_, 'static, Both<KindPrefix<'p>, T>> {
                let both = Both(KindPrefix { kind: self.kind(), prefix: prefix.as_ref() }, automaton);
                Matches::of(self.kind(), self.as_bytes(), Bound::Excluded(key.as_ref()), Bound::Unbounded, both)
            }

            /// Lists the pairs whose keys few edits make of a word, the nearest first, and those that are as near in the order
            /// of bytes. It searches as it is asked, so the first ones cost little.
            ///
            /// ```
            #[doc = concat!("use zerotrie::", stringify!($name), ";")]
            /// use zerotrie::search::OsaChars;
            ///
            #[doc = concat!("let trie = ", stringify!($name), "::try_from_iter([(\"ton\", 4), (\"to\", 3), (\"on\", 2), (\"ot\", 1)])?;")]
            /// let mut nearest = trie.nearest(OsaChars::new("to", 1).unwrap());
            /// nearest.advance();
            /// assert_eq!((nearest.value(), nearest.distance()), (3, 0));
            /// assert_eq!(nearest.values().collect::<Vec<_>>(), [1, 4]);
            /// # Ok::<(), zerotrie::ZeroTrieBuildError>(())
            /// ```
            pub fn nearest<T: Fuzzy>(&self, word: T) -> Nearest<'_, T> {
                Nearest::of(self.kind(), self.as_bytes(), word)
            }

            /// Lists the pairs between two bounds in ascending order of bytes, whatever the kind.
            ///
            /// ```
            #[doc = concat!("use zerotrie::", stringify!($name), ";")]
            ///
            #[doc = concat!("let trie = ", stringify!($name), "::try_from_iter([(\"to\", 3), (\"in\", 1), (\"on\", 2)])?;")]
            /// assert_eq!(trie.stream_sorted("j"..).values().collect::<Vec<_>>(), [2, 3]);
            /// # Ok::<(), zerotrie::ZeroTrieBuildError>(())
            /// ```
            pub fn stream_sorted<'p>(&self, bounds: impl Into<KeyRange<'p>>) -> Sorted<'_, 'p> {
                Sorted::of(self.kind(), self.as_bytes(), bounds.into())
            }

            /// Lists the pairs between two bounds, in ascending order of bytes, as `stream_sorted` does.
            ///
            /// ```
            #[doc = concat!("use zerotrie::", stringify!($name), ";")]
            ///
            #[doc = concat!("let trie = ", stringify!($name), "::try_from_iter([(\"to\", 3), (\"in\", 1), (\"on\", 2)])?;")]
            /// assert_eq!(trie.range("in".."to").map(|(_key, value)| value).collect::<Vec<_>>(), [1, 2]);
            /// # Ok::<(), zerotrie::ZeroTrieBuildError>(())
            /// ```
            pub fn range<'p>(&self, bounds: impl Into<KeyRange<'p>>) -> Sorted<'_, 'p> {
                self.stream_sorted(bounds)
            }

            /// Lists the same pairs from the last one on. A pair costs about two look-ups.
            ///
            /// ```
            #[doc = concat!("use zerotrie::", stringify!($name), ";")]
            ///
            #[doc = concat!("let trie = ", stringify!($name), "::try_from_iter([(\"to\", 3), (\"in\", 1), (\"on\", 2)])?;")]
            /// assert_eq!(trie.reversed("in".."to").map(|(_key, value)| value).collect::<Vec<_>>(), [2, 1]);
            /// # Ok::<(), zerotrie::ZeroTrieBuildError>(())
            /// ```
            pub fn reversed<'p>(&self, bounds: impl Into<KeyRange<'p>>) -> Reversed<'_, 'p> {
                Reversed::of(self.kind(), self.as_bytes(), bounds.into())
            }

            /// Returns the least pair, by the bytes of its key, whose key is at least this one.
            ///
            /// ```
            #[doc = concat!("use zerotrie::", stringify!($name), ";")]
            ///
            #[doc = concat!("let trie = ", stringify!($name), "::try_from_iter([(\"in\", 1), (\"on\", 2)])?;")]
            /// assert_eq!(trie.first_from("in"), Some((b"in".to_vec(), 1)));
            /// assert_eq!(trie.first_from("ink"), Some((b"on".to_vec(), 2)));
            /// # Ok::<(), zerotrie::ZeroTrieBuildError>(())
            /// ```
            pub fn first_from<K: AsRef<[u8]>>(&self, key: K) -> Option<(Vec<u8>, usize)> {
                first(self.kind(), self.as_bytes(), Bound::Included(key.as_ref()))
            }

            /// Returns the least pair, by the bytes of its key, whose key is above this one.
            ///
            /// ```
            #[doc = concat!("use zerotrie::", stringify!($name), ";")]
            ///
            #[doc = concat!("let trie = ", stringify!($name), "::try_from_iter([(\"in\", 1), (\"on\", 2)])?;")]
            /// assert_eq!(trie.first_after("in"), Some((b"on".to_vec(), 2)));
            /// # Ok::<(), zerotrie::ZeroTrieBuildError>(())
            /// ```
            pub fn first_after<K: AsRef<[u8]>>(&self, key: K) -> Option<(Vec<u8>, usize)> {
                first(self.kind(), self.as_bytes(), Bound::Excluded(key.as_ref()))
            }

            /// Returns the greatest pair, by the bytes of its key, whose key is below this one.
            ///
            /// ```
            #[doc = concat!("use zerotrie::", stringify!($name), ";")]
            ///
            #[doc = concat!("let trie = ", stringify!($name), "::try_from_iter([(\"in\", 1), (\"on\", 2)])?;")]
            /// assert_eq!(trie.last_before("on"), Some((b"in".to_vec(), 1)));
            /// assert_eq!(trie.last_before("in"), None);
            /// # Ok::<(), zerotrie::ZeroTrieBuildError>(())
            /// ```
            pub fn last_before<K: AsRef<[u8]>>(&self, key: K) -> Option<(Vec<u8>, usize)> {
                self.last_within((Bound::Unbounded, Bound::Excluded(key.as_ref())))
            }

            /// Returns the greatest pair, by the bytes of its key, between two bounds.
            ///
            /// ```
            #[doc = concat!("use zerotrie::", stringify!($name), ";")]
            ///
            #[doc = concat!("let trie = ", stringify!($name), "::try_from_iter([(\"in\", 1), (\"on\", 2), (\"to\", 3)])?;")]
            /// assert_eq!(trie.last_within("i".."o"), Some((b"in".to_vec(), 1)));
            /// assert_eq!(trie.last_within(..), Some((b"to".to_vec(), 3)));
            /// # Ok::<(), zerotrie::ZeroTrieBuildError>(())
            /// ```
            pub fn last_within<'p>(&self, bounds: impl Into<KeyRange<'p>>) -> Option<(Vec<u8>, usize)> {
                last(self.kind(), self.as_bytes(), bounds.into())
            }

            /// Returns the first key, in the order of the trie's bytes, that has a value. Reads the pairs
            /// one after another.
            ///
            /// ```
            #[doc = concat!("use zerotrie::", stringify!($name), ";")]
            ///
            #[doc = concat!("let trie = ", stringify!($name), "::try_from_iter([(\"in\", 1), (\"on\", 2)])?;")]
            /// assert_eq!(trie.first_key_of(2), Some(b"on".to_vec()));
            /// # Ok::<(), zerotrie::ZeroTrieBuildError>(())
            /// ```
            pub fn first_key_of(&self, value: usize) -> Option<Vec<u8>> {
                let mut pairs = self.stream();
                while pairs.advance() {
                    if pairs.value() == value {
                        return Some(pairs.key().to_vec());
                    }
                }
                None
            }

            /// Builds a table that finds the first key of a value by a binary search.
            ///
            /// ```
            #[doc = concat!("use zerotrie::", stringify!($name), ";")]
            ///
            #[doc = concat!("let trie = ", stringify!($name), "::try_from_iter([(\"in\", 1), (\"on\", 2)])?;")]
            /// let table = trie.keys_by_value();
            /// assert_eq!(table.first_key_of(2), Some(b"on".to_vec()));
            /// # Ok::<(), zerotrie::ZeroTrieBuildError>(())
            /// ```
            pub fn keys_by_value(&self) -> KeysByValue<'_> {
                KeysByValue::of(self.kind(), self.as_bytes())
            }

            /// Returns whether the bytes are a valid trie of the kind. Reads each once, and does not
            /// allocate.
            ///
            /// ```
            #[doc = concat!("use zerotrie::", stringify!($name), ";")]
            ///
            #[doc = concat!("let trie = ", stringify!($name), "::try_from_iter([(\"in\", 1), (\"on\", 2)])?;")]
            /// assert!(trie.is_well_formed());
            /// # Ok::<(), zerotrie::ZeroTrieBuildError>(())
            /// ```
            pub fn is_well_formed(&self) -> bool {
                by_kind!(self.kind(), zerotrie_core::is_well_formed::<_>(self.as_bytes()))
            }

            /// Returns the first place where the bytes are malformed, and the rule that they break there.
            ///
            /// ```
            #[doc = concat!("use zerotrie::", stringify!($name), ";")]
            ///
            #[doc = concat!("let trie = ", stringify!($name), "::try_from_iter([(\"in\", 1), (\"on\", 2)])?;")]
            /// assert_eq!(trie.first_fault(), None);
            /// # Ok::<(), zerotrie::ZeroTrieBuildError>(())
            /// ```
            pub fn first_fault(&self) -> Option<Fault> {
                fault(self.kind(), self.as_bytes())
            }

            /// Returns the number of the kind, followed by the bytes of the trie.
            ///
            /// ```
            #[doc = concat!("use zerotrie::", stringify!($name), ";")]
            ///
            #[doc = concat!("let trie = ", stringify!($name), "::try_from_iter([(\"in\", 1)])?;")]
            /// let bytes = trie.to_tagged_bytes();
            #[doc = concat!("assert_eq!(", stringify!($name), "::load(&bytes).unwrap().get(\"in\"), Some(1));")]
            /// # Ok::<(), zerotrie::ZeroTrieBuildError>(())
            /// ```
            pub fn to_tagged_bytes(&self) -> Vec<u8> {
                tagged(self.kind(), self.as_bytes())
            }

            /// Returns a sealed file: a header with the kind, the length and a checksum, followed by the
            /// bytes of the trie.
            ///
            /// ```
            #[doc = concat!("use zerotrie::", stringify!($name), ";")]
            ///
            #[doc = concat!("let trie = ", stringify!($name), "::try_from_iter([(\"in\", 1)])?;")]
            #[doc = concat!("let file = ", stringify!($name), "::open(trie.seal()).unwrap();")]
            /// assert_eq!(file.get("in"), Some(1));
            /// # Ok::<(), zerotrie::ZeroTrieBuildError>(())
            /// ```
            pub fn seal(&self) -> Vec<u8> {
                allocated(zerotrie_sealed::seal(Global, self.kind(), self.as_bytes())).into_inner()
            }

            /// Lists the keys of this trie or another one, each once, in ascending order of bytes.
            ///
            /// ```
            #[doc = concat!("use zerotrie::{ZeroTrieSimpleAscii, ", stringify!($name), " as Trie};")]
            /// use zerotrie::sets::Keep;
            ///
            /// let first = Trie::try_from_iter([("in", 1), ("on", 2)])?;
            /// let second = ZeroTrieSimpleAscii::try_from_iter([("in", 5), ("to", 6)])?;
            /// let all: Trie<Vec<u8>> = first.union(&second, Keep::First).collect();
            /// assert_eq!(all.values().collect::<Vec<_>>(), [1, 2, 6]);
            /// # Ok::<(), zerotrie::ZeroTrieBuildError>(())
            /// ```
            ///
            /// A listing of three or more is [`MergeAll`](crate::sets::MergeAll).
            pub fn union<'a, T: Trie + ?Sized>(&'a self, other: &'a T, keep: Keep) -> Combination<'a> {
                self.stream_sorted(..).combine(sorted(other), Operation::Union(keep))
            }

            /// Lists the keys that both this trie and another one have, in ascending order of bytes.
            ///
            /// ```
            #[doc = concat!("use zerotrie::{ZeroTrieSimpleAscii, ", stringify!($name), " as Trie};")]
            /// use zerotrie::sets::Keep;
            ///
            /// let first = Trie::try_from_iter([("in", 1), ("on", 2)])?;
            /// let second = ZeroTrieSimpleAscii::try_from_iter([("in", 5), ("to", 6)])?;
            /// let both: Vec<_> = first.intersection(&second, Keep::Last).collect();
            /// assert_eq!(both, [(b"in".to_vec(), 5)]);
            /// # Ok::<(), zerotrie::ZeroTrieBuildError>(())
            /// ```
            pub fn intersection<'a, T: Trie + ?Sized>(&'a self, other: &'a T, keep: Keep) -> Combination<'a> {
                self.stream_sorted(..).combine(sorted(other), Operation::Intersection(keep))
            }

            /// Lists the pairs whose keys another trie does not have, in ascending order of bytes.
            ///
            /// ```
            #[doc = concat!("use zerotrie::{ZeroTrieSimpleAscii, ", stringify!($name), " as Trie};")]
            ///
            /// let first = Trie::try_from_iter([("in", 1), ("on", 2)])?;
            /// let second = ZeroTrieSimpleAscii::try_from_iter([("in", 5), ("to", 6)])?;
            /// assert_eq!(first.difference(&second).collect::<Vec<_>>(), [(b"on".to_vec(), 2)]);
            /// # Ok::<(), zerotrie::ZeroTrieBuildError>(())
            /// ```
            pub fn difference<'a, T: Trie + ?Sized>(&'a self, other: &'a T) -> Combination<'a> {
                self.stream_sorted(..).combine(sorted(other), Operation::Difference)
            }

            /// Lists the pairs whose keys only one of two tries has, in ascending order of bytes.
            ///
            /// ```
            #[doc = concat!("use zerotrie::{ZeroTrieSimpleAscii, ", stringify!($name), " as Trie};")]
            ///
            /// let first = Trie::try_from_iter([("in", 1), ("on", 2)])?;
            /// let second = ZeroTrieSimpleAscii::try_from_iter([("in", 5), ("to", 6)])?;
            /// assert_eq!(first.symmetric_difference(&second).values().sum::<usize>(), 8);
            /// # Ok::<(), zerotrie::ZeroTrieBuildError>(())
            /// ```
            pub fn symmetric_difference<'a, T: Trie + ?Sized>(&'a self, other: &'a T) -> Combination<'a> {
                self.stream_sorted(..).combine(sorted(other), Operation::SymmetricDifference)
            }

            /// Lists what changed from this trie to another one, in ascending order of bytes.
            ///
            /// ```
            #[doc = concat!("use zerotrie::{ZeroTrieSimpleAscii, ", stringify!($name), " as Trie};")]
            /// use zerotrie::sets::Change;
            ///
            /// let old = Trie::try_from_iter([("in", 1), ("on", 2)])?;
            /// let new = ZeroTrieSimpleAscii::try_from_iter([("in", 5), ("on", 2)])?;
            /// let changes: Vec<_> = old.diff(&new).collect();
            /// assert_eq!(changes, [(b"in".to_vec(), Change::Changed(1, 5))]);
            /// # Ok::<(), zerotrie::ZeroTrieBuildError>(())
            /// ```
            pub fn diff<'a, T: Trie + ?Sized>(&'a self, other: &'a T) -> Difference<'a> {
                self.stream_sorted(..).diff(sorted(other))
            }
        }

        impl<Store: AsRef<[u8]> + $($bound)*> crate::any::sealed::Sealed for $name<Store> {}

        impl<Store: AsRef<[u8]> + $($bound)*> Trie for $name<Store> {
            fn kind(&self) -> TrieKind {
                $name::kind(self)
            }

            fn as_bytes(&self) -> &[u8] {
                $name::as_bytes(self)
            }
        }

        impl $name<Vec<u8>> {
            /// Builds a trie of pairs in any order.
            ///
            /// ```
            #[doc = concat!("use zerotrie::", stringify!($name), ";")]
            ///
            #[doc = concat!("let trie = ", stringify!($name), "::try_from_iter([(\"on\", 2), (\"in\", 1)])?;")]
            /// assert_eq!(trie.get("in"), Some(1));
            #[doc = concat!("assert!(", stringify!($name), "::try_from_iter([(\"in\", 1), (\"in\", 2)]).is_err());")]
            /// # Ok::<(), zerotrie::ZeroTrieBuildError>(())
            /// ```
            ///
            /// A map lists pairs of references, which it takes, too: `try_from_iter(&map)`.
            pub fn try_from_iter<K: AsRef<[u8]>, V: Borrow<usize>>(
                pairs: impl IntoIterator<Item = (K, V)>,
            ) -> Result<Self, ZeroTrieBuildError> {
                let pairs: Vec<(K, usize)> = pairs.into_iter().map(|(key, value)| (key, *value.borrow())).collect();
                Self::of_pairs(&lent(&pairs))
            }

            /// Builds a trie of pairs whose keys ascend by their bytes. They are read where they lie, so of
            /// all builds this one needs the least memory.
            ///
            /// ```
            #[doc = concat!("use zerotrie::{", stringify!($name), ", ZeroTrieBuildError};")]
            ///
            #[doc = concat!("let trie = ", stringify!($name), "::try_from_sorted_slice(&[(\"in\", 1), (\"on\", 2)])?;")]
            /// assert_eq!(trie.get("in"), Some(1));
            #[doc = concat!("let unsorted = ", stringify!($name), "::try_from_sorted_slice(&[(\"on\", 2), (\"in\", 1)]);")]
            /// assert_eq!(unsorted, Err(ZeroTrieBuildError::Unsorted));
            /// # Ok::<(), zerotrie::ZeroTrieBuildError>(())
            /// ```
            pub fn try_from_sorted_slice<K: AsRef<[u8]>>(pairs: &[(K, usize)]) -> Result<Self, ZeroTrieBuildError> {
                Self::of_sorted(pairs)
            }

            /// Builds a trie of a `BTreeMap` whose keys are strings.
            ///
            /// ```
            /// use std::collections::BTreeMap;
            #[doc = concat!("use zerotrie::", stringify!($name), ";")]
            ///
            /// let map = BTreeMap::from([("in", 1), ("on", 2)]);
            #[doc = concat!("let trie = ", stringify!($name), "::try_from_btree_map_str(&map)?;")]
            /// assert_eq!(trie.get("on"), Some(2));
            /// # Ok::<(), zerotrie::ZeroTrieBuildError>(())
            /// ```
            pub fn try_from_btree_map_str<K: Borrow<str>>(map: &BTreeMap<K, usize>) -> Result<Self, ZeroTrieBuildError> {
                Self::of_pairs(&map.iter().map(|(key, value)| (key.borrow().as_bytes(), *value)).collect::<Vec<_>>())
            }
        }

        impl<K: AsRef<[u8]>> FromIterator<(K, usize)> for $name<Vec<u8>> {
            /// Builds a trie of pairs in any order.
            ///
            /// # Panics
            ///
            /// Where `try_from_iter` returns an error.
            fn from_iter<T: IntoIterator<Item = (K, usize)>>(pairs: T) -> Self {
                Self::try_from_iter(pairs).expect("the pairs should be those of a trie")
            }
        }

        impl<'a> $name<&'a [u8]> {
            /// Returns the trie in tagged bytes, which are validated.
            ///
            /// ```
            #[doc = concat!("use zerotrie::", stringify!($name), ";")]
            ///
            #[doc = concat!("let bytes = ", stringify!($name), "::try_from_iter([(\"in\", 1)])?.to_tagged_bytes();")]
            #[doc = concat!("assert_eq!(", stringify!($name), "::load(&bytes).unwrap().get(\"in\"), Some(1));")]
            #[doc = concat!("assert!(", stringify!($name), "::load(&bytes[..2]).is_err());")]
            /// # Ok::<(), zerotrie::ZeroTrieBuildError>(())
            /// ```
            pub fn load(bytes: &'a [u8]) -> Result<Self, LoadError> {
                let trie = Self::try_from_tagged_bytes(bytes)?;
                if trie.is_well_formed() { Ok(trie) } else { Err(LoadError::NotWellFormed) }
            }

            /// Returns the trie in tagged bytes, which are not validated.
            ///
            /// ```
            #[doc = concat!("use zerotrie::", stringify!($name), ";")]
            ///
            #[doc = concat!("let bytes = ", stringify!($name), "::try_from_iter([(\"in\", 1)])?.to_tagged_bytes();")]
            #[doc = concat!("let trie = ", stringify!($name), "::try_from_tagged_bytes(&bytes).unwrap();")]
            /// assert_eq!(trie.get("in"), Some(1));
            #[doc = concat!("assert!(", stringify!($name), "::try_from_tagged_bytes(b\"\\x77in\\x81\").is_err());")]
            /// # Ok::<(), zerotrie::ZeroTrieBuildError>(())
            /// ```
            pub fn try_from_tagged_bytes(bytes: &'a [u8]) -> Result<Self, TagError> {
                let (tag, bytes) = bytes.split_first().ok_or(TagError::Empty)?;
                let trie = TrieKind::of_tag(*tag).and_then(|kind| Self::of_kind(kind, bytes));
                trie.ok_or(TagError::InvalidTag)
            }
        }

        impl<File: AsRef<[u8]>> $name<Sealed<File>> {
            /// Returns the trie in a sealed file, whose checksum is compared. The file may be anything that
            /// has bytes, as a `Vec` or a memory map, and goes into the trie: no byte is copied. It is not a path, whose bytes are its
            /// letters: read a file by `std::fs::read`.
            ///
            /// ```
            #[doc = concat!("use zerotrie::", stringify!($name), ";")]
            ///
            #[doc = concat!("let mut file = ", stringify!($name), "::try_from_iter([(\"in\", 1)])?.seal();")]
            #[doc = concat!("let trie = ", stringify!($name), "::open(&file).unwrap();")]
            /// assert_eq!(trie.get("in"), Some(1));
            ///
            /// file[24] ^= 1;
            #[doc = concat!("assert!(", stringify!($name), "::open(&file).is_err());")]
            /// # Ok::<(), zerotrie::ZeroTrieBuildError>(())
            /// ```
            ///
            /// The bytes of a sealed file are not validated as a trie: of a file that was not sealed from a
            /// valid trie, results are unspecified. Ask `is_well_formed` of one that comes from elsewhere.
            pub fn open(file: File) -> Result<Self, SealError> {
                let (kind, store) = Sealed::open(file)?;
                Self::of_kind(kind, store).ok_or(SealError::UnknownKind(kind.tag().into()))
            }
        }
    };
}
pub(crate) use calls;
