// Made from crates/zerotrie_core/src/borders.rt by rust/make: edit that.
//! The longest prefix of a text that is a key and ends at a border of the text.

use crate::zerotrie_core::prefixes::CommonPrefixes;
use crate::zerotrie_base::ZeroTrieWithOptions;

/// Returns whether a border of `text` is after `len` bytes: its beginning, its end, or a place with a
/// delimiter next.
fn is_border(text: &[u8], len: usize, delimiters: &[u8]) -> bool {
    len == 0 || text.get(len).is_none_or(|byte| delimiters.contains(byte))
}

/// Returns the length and the value of the longest key that `text` begins with and that ends at a
/// border of `text`, or `None` if there is none. A border is the end of `text`, or a place with one
/// of the delimiters next. The empty key always counts.
///
/// ```
/// # use zerotrie::{rstd::examples::*, zerotrie_core::*, zerotrie_base::*};
/// let bytes = b"a\x81b\x82";                  // the keys "a" with value 1 and "ab" with value 2
/// assert_eq!(longest_prefix_at::<Simple>(bytes, b"ab-c", b"-_"), Some((2, 2)));
/// assert_eq!(longest_prefix_at::<Simple>(bytes, b"a_bc", b"-_"), Some((1, 1)));
/// assert_eq!(longest_prefix_at::<Simple>(bytes, b"abc", b"-_"), None);
/// # Ok::<(), Fail>(())
/// ```
///
/// Reads `text` once, up to the first byte that continues no key, and does not allocate. On
/// malformed bytes the result is unspecified; it never panics or reads outside them, and the length
/// is at most that of `text`.
pub fn longest_prefix_at<K: ZeroTrieWithOptions>(
    bytes: &[u8],
    text: &[u8],
    delimiters: &[u8],
) -> Option<(usize, usize)> {
    let mut longest = None;
    for (len, value) in CommonPrefixes::new::<K>(bytes, text) {
        if is_border(text, len, delimiters) {
            longest = Some((len, value));
        }
    }
    longest
}
