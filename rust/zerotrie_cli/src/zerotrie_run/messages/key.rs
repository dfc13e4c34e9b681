// Made from crates/zerotrie_run/src/messages/key.rt by rust/make: edit that.
//! Keys in messages.

use crate::rstd::prelude::*;
use crate::rstd::alloc::{AllocError, Global};
use crate::rstd::io::Write;
use crate::zerotrie_lines::write_escaped;

/// How many bytes of a key a message shows at most.
const SHOWN: usize = 100;

/// Returns a key with its escapes, the front of a key that is too long to read and its length, or words
/// for the empty key.
fn told_key(alloc: Global, key: &[u8]) -> Result<Vec<u8>, AllocError> {
    let len = key.len();
    if len == 0 {
        return Vec::from_slice(alloc, b"the empty key");
    }
    let mut text = Vec::new(alloc);
    if len <= SHOWN {
        write_escaped(&mut text, key)?;
        return Ok(text);
    }
    let (front, _) = key.split_at(SHOWN);
    write_escaped(&mut text, front)?;
    write!(text, ".. ({len} bytes)").map_err(|_| AllocError)?;
    Ok(text)
}

/// Returns words, and then a key.
pub fn with_key(alloc: Global, words: &str, key: &[u8]) -> Result<Vec<u8>, AllocError> {
    let shown = told_key(alloc, key)?;
    let mut text = Vec::from_slice(alloc, words.as_bytes())?;
    text.extend_from_slice(shown.as_slice())?;
    Ok(text)
}

/// Returns words, and then two keys.
pub fn with_keys(
    alloc: Global,
    words: &str,
    first: &[u8],
    second: &[u8],
) -> Result<Vec<u8>, AllocError> {
    let shown = told_key(alloc, second)?;
    let mut text = with_key(alloc, words, first)?;
    text.extend_from_slice(b" and ")?;
    text.extend_from_slice(shown.as_slice())?;
    Ok(text)
}
