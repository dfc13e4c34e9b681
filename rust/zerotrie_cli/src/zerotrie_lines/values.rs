// Made from crates/zerotrie_lines/src/values.rt by rust/make: edit that.
//! What is wrong with a field that is no value.

use crate::rstd::prelude::*;
use crate::zerotrie_lines::fault::{BadValue, ValueFault};
use crate::rstd::alloc::{AllocError, Global};

/// How many bytes of a field an error has.
const SHOWN: usize = 40;

/// Returns whether a field begins with a sign.
fn has_sign(field: &[u8]) -> bool {
    match field {
        [first, ..] => *first == b'+' || *first == b'-',
        [] => false,
    }
}

/// Returns whether a field has a space or a tab.
fn has_blank(field: &[u8]) -> bool {
    for byte in field {
        if *byte == b' ' || *byte == b'\t' {
            return true;
        }
    }
    false
}

/// Returns whether a field ends in a carriage return.
fn has_return(field: &[u8]) -> bool {
    match field.split_last() {
        Some((last, _)) => *last == b'\r',
        None => false,
    }
}

/// Returns whether a field begins with `0x`.
fn is_hexadecimal(field: &[u8]) -> bool {
    match field {
        [zero, letter, ..] => *zero == b'0' && (*letter == b'x' || *letter == b'X'),
        _ => false,
    }
}

/// Returns whether a field is digits.
fn is_digits(field: &[u8]) -> bool {
    for byte in field {
        if !byte.is_ascii_digit() {
            return false;
        }
    }
    true
}

/// Returns whether a byte is a digit, a dot, an `e` or a sign.
fn is_of_float(byte: u8) -> bool {
    byte.is_ascii_digit()
        || byte == b'.'
        || byte == b'e'
        || byte == b'E'
        || byte == b'+'
        || byte == b'-'
}

/// Returns whether a field begins with a digit, and all of it may be in a fraction.
fn is_fraction(field: &[u8]) -> bool {
    let [first, rest @ ..] = field else {
        return false;
    };
    if !first.is_ascii_digit() {
        return false;
    }
    for byte in rest {
        if !is_of_float(*byte) {
            return false;
        }
    }
    true
}

/// Returns what is wrong with a field that is neither empty nor digits.
fn form_fault(field: &[u8]) -> ValueFault {
    if has_sign(field) {
        ValueFault::Sign
    } else if has_blank(field) {
        ValueFault::Blank
    } else if has_return(field) {
        ValueFault::CarriageReturn
    } else if is_hexadecimal(field) {
        ValueFault::Hexadecimal
    } else if is_fraction(field) {
        ValueFault::Fraction
    } else {
        ValueFault::Other
    }
}

/// Returns what is wrong with a field that is no number.
fn fault_of(field: &[u8]) -> ValueFault {
    if field.is_empty() {
        return ValueFault::Empty;
    }
    if !is_digits(field) {
        return form_fault(field);
    }
    if field.len() > 20 {
        ValueFault::TooLong
    } else {
        ValueFault::TooGreat
    }
}

/// Returns the first bytes of a field.
fn front_of(field: &[u8]) -> &[u8] {
    if field.len() <= SHOWN {
        return field;
    }
    let (front, _) = field.split_at(SHOWN);
    front
}

/// Returns what is wrong with a field that is no number, with its first bytes.
pub(in crate::zerotrie_lines) fn bad_value(alloc: Global, field: &[u8]) -> Result<BadValue, AllocError> {
    Ok(BadValue {
        fault: fault_of(field),
        front: Vec::from_slice(alloc, front_of(field))?,
    })
}
