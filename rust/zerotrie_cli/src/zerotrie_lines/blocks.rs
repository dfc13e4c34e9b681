// Made from crates/zerotrie_lines/src/blocks.rt by rust/make: edit that.
//! Whole lines at the front of bytes.

use crate::rstd::memchr::memrchr;

/// Returns the length of the whole lines, each with its line feed. It is 0 if no line feed is at
/// `from` or later. Only the bytes from there on are searched.
pub fn whole_lines(bytes: &[u8], from: usize) -> usize {
    let Some(fresh) = bytes.get(from..) else {
        return 0;
    };
    match memrchr(b'\n', fresh) {
        Some(place) => from + place + 1,
        None => 0,
    }
}
