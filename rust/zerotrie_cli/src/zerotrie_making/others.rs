// Made from crates/zerotrie_making/src/others.rt by rust/make: edit that.
//! Files that are given for pairs or keys by mistake.

use crate::zerotrie_sealed::begins_sealed;

/// A file that is given for pairs or keys by mistake, known by the bytes that it begins with.
#[derive(Clone, Copy, PartialEq, Eq, Debug)]
pub enum OtherFile {
    /// A text in UTF-16: it begins with the byte order mark of that, and a byte of it is zero.
    Utf16,
    /// A file that gzip made.
    Gzip,
    /// A sealed trie or index.
    Sealed,
}

/// Returns whether an input begins with the byte order mark of UTF-16.
fn has_utf16_mark(input: &[u8]) -> bool {
    input.starts_with(&[0xFF, 0xFE]) || input.starts_with(&[0xFE, 0xFF])
}

/// Returns whether an input is a text in UTF-16. No lines of a listing are, since a zero byte of a
/// key has an escape.
fn is_utf16(input: &[u8]) -> bool {
    has_utf16_mark(input) && input.contains(&0)
}

/// Returns whether an input begins as what gzip makes.
fn is_gzip(input: &[u8]) -> bool {
    input.starts_with(&[0x1F, 0x8B])
}

/// Returns which other file an input is. `None` if it is none of them.
///
/// ```
/// assert_eq!(rt; other_file(b"\xff\xfea\x00\n\x00"), Some(OtherFile::Utf16));
/// assert_eq!(rt; other_file(b"\xff\xfea\n"), None);
/// ```
pub fn other_file(input: &[u8]) -> Option<OtherFile> {
    if is_utf16(input) {
        Some(OtherFile::Utf16)
    } else if is_gzip(input) {
        Some(OtherFile::Gzip)
    } else if begins_sealed(input) {
        Some(OtherFile::Sealed)
    } else {
        None
    }
}

/// Returns whether the beginning of an input shows which other file it is, or that it is none of
/// them. Of what begins with the byte order mark of UTF-16, only the bytes from `from` on are
/// searched for a zero.
///
/// ```
/// assert!(rt; is_settled(b"z\n", 0));
/// assert!(rt; !is_settled(b"ztri", 0));
/// assert!(rt; !is_settled(b"\xff\xfea\n", 0));
/// ```
pub fn is_settled(input: &[u8], from: usize) -> bool {
    if has_utf16_mark(input) {
        let (_, fresh) = input.split_at(from);
        return fresh.contains(&0);
    }
    input.len() >= 8 || input.contains(&b'\n')
}
