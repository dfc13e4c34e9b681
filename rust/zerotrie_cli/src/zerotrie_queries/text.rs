// Made from crates/zerotrie_queries/src/text.rt by rust/make: edit that.
//! Keys and files that are text.

/// Returns whether bytes are UTF-8.
pub fn is_text(bytes: &[u8]) -> bool {
    crate::rstd::str::from_utf8(bytes).is_ok()
}

/// Returns whether a byte may be in a line of text: it is no control character, or it is a tab,
/// a line feed or a carriage return.
fn is_text_byte(byte: u8) -> bool {
    matches!(byte, b'\t' | b'\n' | b'\r') || (byte >= 32 && byte != 127)
}

fn are_text_bytes(bytes: &[u8]) -> bool {
    for byte in bytes {
        if !is_text_byte(*byte) {
            return false;
        }
    }
    true
}

/// Returns whether bytes look like text, and so like no file of a trie: there are some, they are
/// UTF-8, and have no control characters but tabs and the ends of lines.
///
/// ```
/// assert!(rt; looks_like_text(b"amp\t38\nlt\t60\n"));
/// assert!(rt; !looks_like_text(b"\x00a\x85"));
/// assert!(rt; !looks_like_text(b""));
/// ```
///
/// The number of a kind is a control character, so no bytes that begin with one look like text, and
/// no sealed file does.
pub fn looks_like_text(bytes: &[u8]) -> bool {
    !bytes.is_empty() && are_text_bytes(bytes) && is_text(bytes)
}
