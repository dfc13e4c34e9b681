//! Cursors, which follow a key byte by byte.

pub use crate::zerotrie_core::{AsciiProbeResult, ByteProbeResult};

use crate::listing::{ZeroTrieIterator, allocated};
use crate::rstd::alloc::{AllocError, Global};
use crate::zerotrie_core::{Ignore, Simple, SpanCursor, TrieKind, ZeroTrieStream, ZeroTrieWithOptions, probe, step, take_value};
use crate::{
    Pairs, ZeroAsciiIgnoreCaseTrie, ZeroTrie, ZeroTrieExtendedCapacity, ZeroTriePerfectHash, ZeroTrieSimpleAscii, by_kind,
};
use core::convert::identity;
use core::fmt;

fn stream_from<'a, K: ZeroTrieWithOptions>(place: &SpanCursor<'a>) -> Result<ZeroTrieStream<'a>, AllocError> {
    ZeroTrieStream::from_cursor::<K>(Global, place.clone())
}

/// Lists what is left of the keys at a place.
fn pairs_from<'a>(kind: TrieKind, place: &SpanCursor<'a>) -> ZeroTrieIterator<'a> {
    Pairs::new(allocated(by_kind!(kind, stream_from::<_>(place))))
}

/// Where case matters, an edge has the byte that is followed.
fn no_edge(_edge: Option<u8>) {}

/// Gives cursors in tries over ASCII keys their calls. `$stepped` is what a step returns, and `$as`
/// makes it of the byte of the edge.
macro_rules! ascii_cursor {
    ($trie:ident, $cursor:ident, $kind:ident, $stepped:ty, $as:path) => {
        #[doc = concat!("A cursor in a [`", stringify!($trie), "`]: what is left of the keys behind the bytes that it followed.")]
        ///
        /// ```
        #[doc = concat!("use zerotrie::", stringify!($trie), ";")]
        ///
        #[doc = concat!("let trie = ", stringify!($trie), "::from_bytes(b\"abc\\x80def\\x81\");")]
        /// let mut cursor = trie.cursor();
        /// for byte in b"abc" {
        ///     cursor.step(*byte);
        /// }
        /// assert_eq!(cursor.take_value(), Some(0));
        /// ```
        #[derive(Debug, Clone)]
        pub struct $cursor<'a> {
            trie: $trie<&'a [u8]>,
        }

        impl<Store: AsRef<[u8]> + ?Sized> $trie<Store> {
            /// Returns a cursor in front of all keys.
            ///
            /// ```
            /// use core::fmt::Write;
            #[doc = concat!("use zerotrie::", stringify!($trie), ";")]
            ///
            #[doc = concat!("let trie = ", stringify!($trie), "::from_bytes(b\"abc\\x80def\\x81\");")]
            /// let mut cursor = trie.cursor();
            /// write!(cursor, "{}def", "abc")?;
            /// assert_eq!(cursor.take_value(), Some(1));
            /// # Ok::<(), core::fmt::Error>(())
            /// ```
            #[inline]
            pub fn cursor(&self) -> $cursor<'_> {
                self.as_borrowed_slice().into_cursor()
            }

            /// Returns the value of the key that a function writes.
            ///
            /// ```
            #[doc = concat!("use zerotrie::{", stringify!($trie), ", cursor::", stringify!($cursor), "};")]
            /// use core::fmt::Write;
            ///
            #[doc = concat!("let trie = ", stringify!($trie), "::from_bytes(b\"v12\\x80\");")]
            /// assert_eq!(trie.get_with_write_fn(|cursor| write!(cursor, "v{}", 12)), Some(0));
            /// ```
            #[inline]
            pub fn get_with_write_fn<'a>(
                &'a self,
                write_fn: impl for<'b> FnOnce(&'b mut $cursor<'a>) -> fmt::Result,
            ) -> Option<usize> {
                let mut cursor = self.cursor();
                write_fn(&mut cursor).ok()?;
                cursor.take_value()
            }
        }

        impl<'a> $trie<&'a [u8]> {
            /// Returns a cursor in front of all keys, which may outlive this value.
            ///
            /// ```
            #[doc = concat!("use zerotrie::", stringify!($trie), ";")]
            ///
            #[doc = concat!("let trie: ", stringify!($trie), "<&[u8]> = ", stringify!($trie), "::from_store(b\"\\x85\");")]
            /// assert_eq!(trie.into_cursor().take_value(), Some(5));
            /// ```
            #[inline]
            pub fn into_cursor(self) -> $cursor<'a> {
                $cursor { trie: self }
            }
        }

        impl<'a> $cursor<'a> {
            /// Follows the edge of a byte. If there is none, nothing is left.
            ///
            /// ```
            #[doc = concat!("use zerotrie::", stringify!($trie), ";")]
            ///
            #[doc = concat!("let trie = ", stringify!($trie), "::from_bytes(b\"ab\\x85\");")]
            /// let mut cursor = trie.cursor();
            /// cursor.step(b'a');
            /// assert!(!cursor.is_empty());
            /// cursor.step(b'x');
            /// assert!(cursor.is_empty());
            /// ```
            #[doc = concat!("\nReturns `", stringify!($stepped), "`: where case is ignored the byte of the edge, which may have another case.")]
            #[inline]
            pub fn step(&mut self, byte: u8) -> $stepped {
                $as(step::<$kind>(&mut self.trie.store, byte))
            }

            /// Takes the value of the key that ends here. A second call returns `None`.
            ///
            /// ```
            #[doc = concat!("use zerotrie::", stringify!($trie), ";")]
            ///
            #[doc = concat!("let mut cursor = ", stringify!($trie), "::from_bytes(b\"\\x85\").cursor();")]
            /// assert_eq!(cursor.take_value(), Some(5));
            /// assert_eq!(cursor.take_value(), None);
            /// ```
            #[inline]
            pub fn take_value(&mut self) -> Option<usize> {
                take_value(&mut self.trie.store)
            }

            /// Follows the edge of a number, from 0 on, and returns its byte and how many edges there are.
            ///
            /// ```
            #[doc = concat!("use zerotrie::", stringify!($trie), ";")]
            ///
            #[doc = concat!("let trie = ", stringify!($trie), "::try_from_iter([(\"in\", 1), (\"on\", 2)])?;")]
            /// let edge = trie.cursor().probe(1).unwrap();
            /// assert_eq!((edge.byte, edge.total_siblings), (b'o', 2));
            /// # Ok::<(), zerotrie::ZeroTrieBuildError>(())
            /// ```
            pub fn probe(&mut self, index: usize) -> Option<AsciiProbeResult> {
                probe::<$kind>(&mut self.trie.store, index)
            }

            /// Returns whether nothing is left.
            ///
            /// ```
            #[doc = concat!("use zerotrie::", stringify!($trie), ";")]
            ///
            #[doc = concat!("assert!(", stringify!($trie), "::from_bytes(b\"\").cursor().is_empty());")]
            /// ```
            #[inline]
            pub fn is_empty(&self) -> bool {
                self.trie.is_empty()
            }

            /// Returns the trie of what is left of the keys.
            ///
            /// ```
            #[doc = concat!("use zerotrie::", stringify!($trie), ";")]
            ///
            #[doc = concat!("let trie = ", stringify!($trie), "::from_bytes(b\"ab\\x85\");")]
            /// let mut cursor = trie.cursor();
            /// cursor.step(b'a');
            /// assert_eq!(cursor.into_suffix_trie().get("b"), Some(5));
            /// ```
            pub fn into_suffix_trie(self) -> $trie<&'a [u8]> {
                self.trie
            }

            /// Lists what is left of the keys, with their values. The cursor stays where it is.
            ///
            /// ```
            #[doc = concat!("use zerotrie::", stringify!($trie), ";")]
            ///
            #[doc = concat!("let trie = ", stringify!($trie), "::from_bytes(b\"ab\\x85\");")]
            /// let mut cursor = trie.cursor();
            /// cursor.step(b'a');
            /// assert_eq!(cursor.stream().next(), Some((b"b".to_vec(), 5)));
            /// ```
            pub fn stream(&self) -> ZeroTrieIterator<'a> {
                pairs_from(TrieKind::$kind, &SpanCursor::new(self.trie.store))
            }
        }

        /// Follows what is written. A character that is not ASCII is an error, and is not followed.
        impl fmt::Write for $cursor<'_> {
            fn write_str(&mut self, s: &str) -> fmt::Result {
                for byte in s.bytes() {
                    if !byte.is_ascii() {
                        return Err(fmt::Error);
                    }
                    self.step(byte);
                }
                Ok(())
            }
        }
    };
}

ascii_cursor!(ZeroTrieSimpleAscii, ZeroTrieSimpleAsciiCursor, Simple, (), no_edge);
ascii_cursor!(ZeroAsciiIgnoreCaseTrie, ZeroAsciiIgnoreCaseTrieCursor, Ignore, Option<u8>, identity);

/// Gives cursors in tries over any bytes their calls.
macro_rules! byte_cursor {
    ($trie:ident, $cursor:ident, ($($bound:tt)*)) => {
        #[doc = concat!("A cursor in a [`", stringify!($trie), "`]: what is left of the keys behind the bytes that it followed.")]
        ///
        /// ```
        #[doc = concat!("use zerotrie::", stringify!($trie), ";")]
        ///
        #[doc = concat!("let trie = ", stringify!($trie), "::try_from_iter([(\"in\", 1), (\"into\", 2)])?;")]
        /// let mut cursor = trie.cursor();
        /// assert_eq!(cursor.step(b'i'), Some(b'i'));
        /// assert_eq!(cursor.step(b'n'), Some(b'n'));
        /// assert_eq!(cursor.take_value(), Some(1));
        /// # Ok::<(), zerotrie::ZeroTrieBuildError>(())
        /// ```
        ///
        /// It may be inside a span, whose bytes are one edge after another.
        #[derive(Debug, Clone)]
        pub struct $cursor<'a> {
            kind: TrieKind,
            place: SpanCursor<'a>,
        }

        impl<Store: AsRef<[u8]> + $($bound)*> $trie<Store> {
            /// Returns a cursor in front of all keys.
            ///
            /// ```
            #[doc = concat!("use zerotrie::", stringify!($trie), ";")]
            ///
            #[doc = concat!("let trie = ", stringify!($trie), "::try_from_iter([(\"in\", 1)])?;")]
            /// assert!(!trie.cursor().is_empty());
            /// # Ok::<(), zerotrie::ZeroTrieBuildError>(())
            /// ```
            pub fn cursor(&self) -> $cursor<'_> {
                $cursor { kind: self.kind(), place: SpanCursor::new(self.as_bytes()) }
            }
        }

        impl<'a> $trie<&'a [u8]> {
            /// Returns a cursor in front of all keys, which may outlive this value.
            ///
            /// ```
            #[doc = concat!("use zerotrie::", stringify!($trie), ";")]
            ///
            #[doc = concat!("let trie = ", stringify!($trie), "::try_from_iter([(\"\", 5)])?;")]
            /// assert_eq!(trie.as_borrowed_slice().into_cursor().take_value(), Some(5));
            /// # Ok::<(), zerotrie::ZeroTrieBuildError>(())
            /// ```
            pub fn into_cursor(self) -> $cursor<'a> {
                $cursor {
                    kind: self.kind(),
                    place: SpanCursor::new(self.into_store()),
                }
            }
        }

        impl<'a> $cursor<'a> {
            /// Follows the edge of a byte, and returns it. If there is none, nothing is left.
            ///
            /// ```
            #[doc = concat!("use zerotrie::", stringify!($trie), ";")]
            ///
            #[doc = concat!("let trie = ", stringify!($trie), "::try_from_iter([(\"in\", 1)])?;")]
            /// assert_eq!(trie.cursor().step(b'o'), None);
            /// # Ok::<(), zerotrie::ZeroTrieBuildError>(())
            /// ```
            pub fn step(&mut self, byte: u8) -> Option<u8> {
                by_kind!(self.kind, SpanCursor::step::<_>(&mut self.place, byte))
            }

            /// Takes the value of the key that ends here. A second call returns `None`.
            ///
            /// ```
            #[doc = concat!("use zerotrie::", stringify!($trie), ";")]
            ///
            #[doc = concat!("let trie = ", stringify!($trie), "::try_from_iter([(\"\", 5)])?;")]
            /// let mut cursor = trie.cursor();
            /// assert_eq!(cursor.take_value(), Some(5));
            /// assert_eq!(cursor.take_value(), None);
            /// # Ok::<(), zerotrie::ZeroTrieBuildError>(())
            /// ```
            pub fn take_value(&mut self) -> Option<usize> {
                self.place.take_value()
            }

            /// Follows the edge of a number, from 0 on, and returns its byte and how many edges there are.
            ///
            /// ```
            #[doc = concat!("use zerotrie::", stringify!($trie), ";")]
            ///
            #[doc = concat!("let trie = ", stringify!($trie), "::try_from_iter([(\"in\", 1), (\"on\", 2)])?;")]
            /// let edge = trie.cursor().probe(1).unwrap();
            /// assert_eq!((edge.byte, edge.total_siblings), (b'o', 2));
            /// # Ok::<(), zerotrie::ZeroTrieBuildError>(())
            /// ```
            pub fn probe(&mut self, index: usize) -> Option<ByteProbeResult> {
                by_kind!(self.kind, SpanCursor::probe::<_>(&mut self.place, index))
            }

            /// Returns whether nothing is left.
            ///
            /// ```
            #[doc = concat!("use zerotrie::", stringify!($trie), ";")]
            ///
            #[doc = concat!("assert!(", stringify!($trie), "::try_from_iter([(\"\", 0); 0])?.cursor().is_empty());")]
            /// # Ok::<(), zerotrie::ZeroTrieBuildError>(())
            /// ```
            pub fn is_empty(&self) -> bool {
                self.place.is_empty()
            }

            /// Lists what is left of the keys, with their values. The cursor stays where it is.
            ///
            /// ```
            #[doc = concat!("use zerotrie::", stringify!($trie), ";")]
            ///
            #[doc = concat!("let trie = ", stringify!($trie), "::try_from_iter([(\"in\", 1)])?;")]
            /// let mut cursor = trie.cursor();
            /// cursor.step(b'i');
            /// assert_eq!(cursor.stream().next(), Some((b"n".to_vec(), 1)));
            /// # Ok::<(), zerotrie::ZeroTrieBuildError>(())
            /// ```
            pub fn stream(&self) -> ZeroTrieIterator<'a> {
                pairs_from(self.kind, &self.place)
            }

            /// Returns the trie of what is left of the keys, or `None` inside a span.
            ///
            /// ```
            #[doc = concat!("use zerotrie::", stringify!($trie), ";")]
            ///
            #[doc = concat!("let trie = ", stringify!($trie), "::try_from_iter([(\"in\", 1)])?;")]
            /// let mut cursor = trie.cursor();
            /// cursor.step(b'i');
            /// assert_eq!(cursor.into_suffix_trie().unwrap().get("n"), Some(1));
            /// # Ok::<(), zerotrie::ZeroTrieBuildError>(())
            /// ```
            pub fn into_suffix_trie(self) -> Option<$trie<&'a [u8]>> {
                $trie::of_kind(self.kind, self.place.rest()?)
            }
        }
    };
}

byte_cursor!(ZeroTriePerfectHash, ZeroTriePerfectHashCursor, (?Sized));
byte_cursor!(ZeroTrieExtendedCapacity, ZeroTrieExtendedCapacityCursor, (?Sized));
byte_cursor!(ZeroTrie, ZeroTrieCursor, (Sized));
