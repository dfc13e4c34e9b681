// Made from crates/zerotrie_core/src/prefixes.rt by rust/make: edit that.
//! The keys that some text begins with.

use crate::zerotrie_core::laws::steps_look_ahead;
use crate::zerotrie_core::span_cursor::SpanCursor;
use crate::zerotrie_base::{ZeroTrieBuilderOptions, ZeroTrieWithOptions, by_kind};

/// Returns the longest key so far, once a value was looked for after `len` bytes.
#[inline(always)]
fn noted(
    taken: Option<usize>,
    len: usize,
    longest: Option<(usize, usize)>,
) -> Option<(usize, usize)> {
    match taken {
        Some(value) => Some((len, value)),
        None => longest,
    }
}

/// Returns the length and the value of the longest key that `text` begins with, or `None` if it
/// begins with no key.
///
/// ```
/// # use zerotrie::{rstd::examples::*, zerotrie_core::*, zerotrie_base::*};
/// let bytes = b"a\x81bc\x82";                 // the keys "a" with value 1 and "abc" with value 2
/// assert_eq!(longest_prefix::<Simple>(bytes, b"abcd"), Some((3, 2)));
/// assert_eq!(longest_prefix::<Simple>(bytes, b"abd"), Some((1, 1)));
/// assert_eq!(longest_prefix::<Simple>(bytes, b"b"), None);
/// # Ok::<(), Fail>(())
/// ```
///
/// Reads `text` once, up to the first byte that continues no key, and does not allocate. On
/// malformed bytes the result is unspecified; it never panics or reads outside them, and the length
/// is at most that of `text`.
pub fn longest_prefix<K: ZeroTrieWithOptions>(bytes: &[u8], text: &[u8]) -> Option<(usize, usize)> {
    steps_look_ahead();
    let mut cursor = SpanCursor::new(bytes);
    let mut longest = noted(cursor.take_value(), 0, None);
    for (index, byte) in text.iter().enumerate() {
        if cursor.step::<K>(*byte).is_none() {
            return longest;
        }
        longest = noted(cursor.take_value(), index + 1, longest);
    }
    longest
}

#[inline]
fn step_of(options: ZeroTrieBuilderOptions, cursor: &mut SpanCursor<'_>, byte: u8) -> Option<u8> {
    by_kind!(options.kind(), SpanCursor::step::<_>(cursor, byte))
}

/// Takes the value at a cursor, unless it was looked for before.
#[inline]
fn value_here(cursor: &mut SpanCursor<'_>, looked: &mut bool) -> Option<usize> {
    if *looked {
        return None;
    }
    *looked = true;
    cursor.take_value()
}

/// Follows the text to the next value.
fn next_front(
    options: ZeroTrieBuilderOptions,
    cursor: &mut SpanCursor<'_>,
    text: &[u8],
    len: &mut usize,
    looked: &mut bool,
) -> Option<(usize, usize)> {
    loop {
        if let Some(value) = value_here(cursor, looked) {
            return Some((*len, value));
        }
        let byte = text.get(*len)?;
        step_of(options, cursor, *byte)?;
        *len += 1;
        *looked = false;
    }
}

/// An iterator over the keys that `text` begins with, the shortest first: the length of each and
/// its value.
///
/// ```
/// # use zerotrie::{rstd::examples::*, zerotrie_core::*, zerotrie_base::*};
/// let bytes = b"a\x81bc\x82";                 // the keys "a" with value 1 and "abc" with value 2
/// let mut keys = CommonPrefixes::new::<Simple>(bytes, b"abcd");
/// assert_eq!(keys.next(), Some((1, 1)));
/// assert_eq!(keys.next(), Some((3, 2)));
/// assert_eq!(keys.next(), None);
/// # Ok::<(), Fail>(())
/// ```
///
/// Reads `text` once, up to the first byte that continues no key, and does not allocate. On
/// malformed bytes the result is unspecified; it never panics or reads outside them, and each
/// length is at most that of `text`.
#[derive(Clone, Debug)]
pub struct CommonPrefixes<'a, 't> {
    options: ZeroTrieBuilderOptions,
    cursor: SpanCursor<'a>,
    text: &'t [u8],
    len: usize,
    looked: bool,
}

impl<'a, 't> CommonPrefixes<'a, 't> {
    /// Returns an iterator over the keys of a trie that `text` begins with.
    pub fn new<K: ZeroTrieWithOptions>(bytes: &'a [u8], text: &'t [u8]) -> Self {
        CommonPrefixes {
            options: ZeroTrieBuilderOptions::of::<K>(),
            cursor: SpanCursor::new(bytes),
            text,
            len: 0,
            looked: false,
        }
    }
}

impl<'a, 't> Iterator for CommonPrefixes<'a, 't> {
    type Item = (usize, usize);

    fn next(&mut self) -> Option<(usize, usize)> {
        next_front(
            self.options,
            &mut self.cursor,
            self.text,
            &mut self.len,
            &mut self.looked,
        )
    }
}
