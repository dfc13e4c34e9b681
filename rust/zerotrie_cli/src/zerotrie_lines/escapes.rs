// Made from crates/zerotrie_lines/src/escapes.rt by rust/make: edit that.
//! Keys as they are on a line, with escapes for the bytes that can't be, and byte order marks.

use crate::rstd::prelude::*;
use crate::zerotrie_lines::copies::push_bytes;
use crate::zerotrie_lines::plain::{are_plain, shown_len};
use crate::rstd::alloc::AllocError;

/// Returns the number of a hexadecimal digit, in either case.
fn digit_value(digit: u8) -> Option<u8> {
    let value = (digit as char).to_digit(16)?;
    Some(value as u8)
}

/// Returns the byte that two hexadecimal digits spell, and what is left.
fn hex_byte(text: &[u8]) -> Option<(u8, &[u8])> {
    let (high, rest) = text.split_first()?;
    let (low, rest) = rest.split_first()?;
    let high = digit_value(*high)?;
    let low = digit_value(*low)?;
    Some((16 * high + low, rest))
}

/// Returns the byte of an escape, from the letter on, and what is left.
fn escaped_byte(letter: u8, rest: &[u8]) -> Option<(u8, &[u8])> {
    match letter {
        b't' => Some((b'\t', rest)),
        b'n' => Some((b'\n', rest)),
        b'r' => Some((b'\r', rest)),
        b'\\' => Some((b'\\', rest)),
        b'x' => hex_byte(rest),
        _ => None,
    }
}

/// Returns the first byte that a text spells, and what is left.
fn first_byte(text: &[u8]) -> Option<(u8, &[u8])> {
    let (first, rest) = text.split_first()?;
    if *first != b'\\' {
        return Some((*first, rest));
    }
    let (letter, rest) = rest.split_first()?;
    escaped_byte(*letter, rest)
}

/// Decodes the escapes of a text, as a key on a line has them, and returns whether they are
/// well-formed.
///
/// ```
/// let mut key = Vec::new(rt.alloc());
/// assert_eq!(rt; unescape(b"a\\tb\\x41", &mut key)?, true);
/// assert_eq!(rt; key.as_slice(), b"a\tbA".as_slice());
/// assert_eq!(rt; unescape(b"a\\", &mut key)?, false);
/// ```
///
/// The bytes replace those that `key` has. If an escape is malformed, `key` is then unspecified.
pub fn unescape(text: &[u8], key: &mut Vec<u8>) -> Result<bool, AllocError> {
    key.clear();
    let mut rest = text;
    while !rest.is_empty() {
        let Some((byte, behind)) = first_byte(rest) else {
            return Ok(false);
        };
        key.push(byte)?;
        rest = behind;
    }
    Ok(true)
}

/// Returns the lower-case hexadecimal digit of a number below 16.
pub fn hex_digit(n: u8) -> u8 {
    if n < 10 { b'0' + n } else { b'a' + (n - 10) }
}

/// Writes a byte that needs an escape.
fn write_escape(output: &mut Vec<u8>, byte: u8) -> Result<(), AllocError> {
    match byte {
        b'\t' => output.extend_from_slice(b"\\t"),
        b'\n' => output.extend_from_slice(b"\\n"),
        b'\r' => output.extend_from_slice(b"\\r"),
        b'\\' => output.extend_from_slice(b"\\\\"),
        _ => {
            let text = [b'\\', b'x', hex_digit(byte / 16), hex_digit(byte % 16)];
            output.extend_from_slice(&text)
        }
    }
}

/// Returns how many bytes at the front are characters that need no escape.
fn shown_run(bytes: &[u8]) -> usize {
    let mut len = 0;
    loop {
        let (_, rest) = bytes.split_at(len);
        let more = shown_len(rest);
        if more == 0 {
            return len;
        }
        len += more;
    }
}

/// Writes the first characters that need no escape, or an escape of the first byte, and takes off
/// what it wrote.
fn write_first(output: &mut Vec<u8>, rest: &mut &[u8]) -> Result<(), AllocError> {
    let Some((first, behind)) = rest.split_first() else {
        return Ok(());
    };
    let len = shown_run(rest);
    if len == 0 {
        write_escape(output, *first)?;
        *rest = behind;
        return Ok(());
    }
    let (shown, left) = rest.split_at(len);
    push_bytes(output, shown)?;
    *rest = left;
    Ok(())
}

/// Returns whether bytes begin with a byte order mark.
fn has_mark(bytes: &[u8]) -> bool {
    match bytes {
        [first, second, third, ..] => *first == 0xEF && *second == 0xBB && *third == 0xBF,
        _ => false,
    }
}

/// Returns an input without the byte order mark that may be in front.
///
/// ```
/// assert_eq!(rt; without_mark(b"\xef\xbb\xbfad\t22\n"), b"ad\t22\n".as_slice());
/// assert_eq!(rt; without_mark(b"ad\t22\n"), b"ad\t22\n".as_slice());
/// ```
pub fn without_mark(input: &[u8]) -> &[u8] {
    if has_mark(input) {
        let (_, text) = input.split_at(3);
        text
    } else {
        input
    }
}

/// Writes a key as it is on a line: with escapes for a backslash, for characters that steer a
/// terminal or are not seen, and for bytes that are not UTF-8.
///
/// ```
/// let mut text = Vec::new(rt.alloc());
/// write_escaped(&mut text, b"a\tb\xc3\xa4\xc2\x9b\xff")?;
/// assert_eq!(rt; text.as_slice(), b"a\\tb\xc3\xa4\\xc2\\x9b\\xff".as_slice());
/// ```
#[inline(always)]
pub fn write_escaped(output: &mut Vec<u8>, key: &[u8]) -> Result<(), AllocError> {
    if are_plain(key) {
        return push_bytes(output, key);
    }
    let mut rest = key;
    while !rest.is_empty() {
        write_first(output, &mut rest)?;
    }
    Ok(())
}
