// Made from crates/zerotrie_queries/src/code/name.rt by rust/make: edit that.
//! The names that code can have.

/// Returns whether a byte is an ASCII letter or `_`.
fn is_letter(byte: u8) -> bool {
    matches!(byte, b'a'..=b'z' | b'A'..=b'Z' | b'_')
}

/// Returns whether a byte is an ASCII letter, `_` or an ASCII digit.
fn is_in_word(byte: u8) -> bool {
    is_letter(byte) || matches!(byte, b'0'..=b'9')
}

/// Returns whether all bytes are ASCII letters, `_` or ASCII digits.
fn are_in_word(bytes: &[u8]) -> bool {
    for byte in bytes {
        if !is_in_word(*byte) {
            return false;
        }
    }
    true
}

/// Returns whether the name is an identifier: ASCII letters, `_` and ASCII digits, and no digit
/// first. It may be a keyword.
pub fn is_name(name: &str) -> bool {
    match name.as_bytes() {
        [first, rest @ ..] => is_letter(*first) && are_in_word(rest),
        [] => false,
    }
}
