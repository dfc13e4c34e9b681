// Made from crates/zerotrie_lines/src/strings.rt by rust/make: edit that.
//! Texts as JSON has them.

use crate::rstd::prelude::*;
use crate::zerotrie_lines::escapes::hex_digit;
use crate::rstd::alloc::AllocError;

/// Adds a byte of a text as it is in a JSON string.
fn write_text_byte(output: &mut Vec<u8>, byte: u8) -> Result<(), AllocError> {
    match byte {
        b'"' => output.extend_from_slice(b"\\\""),
        b'\\' => output.extend_from_slice(b"\\\\"),
        b'\x08' => output.extend_from_slice(b"\\b"),
        b'\x0c' => output.extend_from_slice(b"\\f"),
        b'\n' => output.extend_from_slice(b"\\n"),
        b'\r' => output.extend_from_slice(b"\\r"),
        b'\t' => output.extend_from_slice(b"\\t"),
        0..=31 => {
            let high = hex_digit(byte / 16);
            let low = hex_digit(byte % 16);
            output.extend_from_slice(&[b'\\', b'u', b'0', b'0', high, low])
        }
        _ => {
            output.push(byte)?;
            Ok(())
        }
    }
}

/// Writes bytes as a JSON string: in quotes, with an escape for a quote, a backslash and a byte
/// below 32. It is valid if the bytes are UTF-8; others are written as they are.
pub fn write_quoted(output: &mut Vec<u8>, text: &[u8]) -> Result<(), AllocError> {
    output.push(b'"')?;
    for byte in text {
        write_text_byte(output, *byte)?;
    }
    output.push(b'"')?;
    Ok(())
}
