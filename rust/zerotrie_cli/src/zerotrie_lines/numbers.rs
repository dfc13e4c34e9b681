// Made from crates/zerotrie_lines/src/numbers.rt by rust/make: edit that.
//! Numbers in decimal.

use crate::rstd::prelude::*;
use crate::zerotrie_lines::copies::push_bytes;
use crate::rstd::itoa::Buffer;
use crate::rstd::alloc::AllocError;

/// Parses 1 to 20 decimal digits. `None` if the text is anything else, or the number is 2^64 or
/// more.
pub fn parse_number(digits: &[u8]) -> Option<usize> {
    if digits.is_empty() || digits.len() > 20 {
        return None;
    }
    let mut value: usize = 0;
    for digit in digits {
        if !digit.is_ascii_digit() {
            return None;
        }
        value = value
            .checked_mul(10)?
            .checked_add((*digit - b'0') as usize)?;
    }
    Some(value)
}

/// Writes a number.
pub fn write_number(output: &mut Vec<u8>, number: usize) -> Result<(), AllocError> {
    let mut buffer = Buffer::new();
    push_bytes(output, buffer.format(number).as_bytes())
}
