// Made from crates/zerotrie_any/src/json/no_pair.rt by rust/make: edit that.
//! Finds the part of a JSON value that is no pair.

use crate::rstd::prelude::*;
use crate::zerotrie_any::json::reading::{byte_of, number_of};
use crate::rstd::serde_json::{Map, Value};

/// A member or an item of a JSON value that is no pair.
#[derive(Clone, Copy, PartialEq, Eq, Debug)]
pub enum NoPair<'a> {
    /// Of an object the member with this name: its value is not written as a whole number from 0
    /// to 2^64 - 1.
    Member(&'a str),
    /// Of a list the item with this number, from 1 on: it is no list of a key and such a number.
    Item(usize),
}

impl core::fmt::Display for NoPair<'_> {
    #[inline]
    fn fmt(&self, f: &mut core::fmt::Formatter<'_>) -> core::fmt::Result {
        match self {
            Self::Member(field) => write!(f, "the value of {field:?} is no whole number from 0 to 18446744073709551615"),
            Self::Item(field) => write!(f, "item {field} of the list is no pair of a key and a whole number from 0 to 18446744073709551615"),
        }
    }
}

impl core::error::Error for NoPair<'_> {}

/// Returns whether each value is a byte.
fn are_bytes(items: &[Value]) -> bool {
    for item in items {
        if byte_of(item).is_none() {
            return false;
        }
    }
    true
}

/// Returns whether a value is a key: a string, or a list of bytes.
fn is_key(value: &Value) -> bool {
    match value.as_array() {
        Some(items) => are_bytes(items.as_slice()),
        None => value.as_str().is_some(),
    }
}

/// Returns whether a value is a pair, which is a list of exactly two.
fn is_pair(value: &Value) -> bool {
    let Some(items) = value.as_array() else {
        return false;
    };
    if items.len() != 2 {
        return false;
    }
    is_key(&items[0]) && number_of(&items[1]).is_some()
}

/// Returns the number of the first item that is no pair, from 1 on.
fn bad_item(items: &[Value]) -> Option<usize> {
    for (index, item) in items.iter().enumerate() {
        if !is_pair(item) {
            return Some(index + 1);
        }
    }
    None
}

/// Returns the name of the first member whose value is no whole number.
fn bad_member(members: &Map<String, Value>) -> Option<&str> {
    for (name, value) in members {
        if number_of(value).is_none() {
            return Some(name.as_str());
        }
    }
    None
}

/// Returns the first member of an object, in the order of the names, or the first item of a list
/// that is no pair.
///
/// ```ignore
/// let value = Value::from_str(rt.alloc(), r#"[["ad",22],["adef"]]"#)?;
/// assert!(rt; why_json_refused(&value) == Some(NoPair::Item(2)));
/// ```
///
/// The result is `None` if each of them is a pair, or if the value is neither an object nor a list.
/// So if a call that reads the value returns `JsonError::Shape`, this returns why.
pub fn why_json_refused(value: &Value) -> Option<NoPair<'_>> {
    if let Some(members) = value.as_object() {
        return Some(NoPair::Member(bad_member(members)?));
    }
    let items = value.as_array()?;
    Some(NoPair::Item(bad_item(items.as_slice())?))
}
