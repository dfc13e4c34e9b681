// Made from crates/zerotrie_any/src/json/writing.rt by rust/make: edit that.
//! Writes a map as a JSON value.

use crate::rstd::prelude::*;
use crate::zerotrie_any::json::JsonError;
use crate::zerotrie_any::list::map_of;
use crate::zerotrie_any::trie::{ZeroTrie, by_flavor};
use crate::rstd::serde_json::{Map, Value};
use crate::rstd::alloc::{AllocError, Global};
use crate::rstd::collections::BTreeMap;
use crate::zerotrie_core::{TrieStore, ZeroTrieWithOptions};

/// Returns the members of an object from keys to values, or `None` if some key is not UTF-8.
fn members_of(
    alloc: Global,
    entries: &BTreeMap<Vec<u8>, usize>,
) -> Result<Option<Map<String, Value>>, AllocError> {
    let mut members = Map::new(alloc);
    for (key, value) in entries {
        let Ok(text) = crate::rstd::str::from_utf8(key.as_slice()) else {
            return Ok(None);
        };
        crate::rstd::serde_json::put(&mut members, alloc, text, Value::from(*value))?;
    }
    Ok(Some(members))
}

/// Returns bytes as a list.
fn bytes_list(alloc: Global, bytes: &[u8]) -> Result<Value, AllocError> {
    let mut items = Vec::new(alloc);
    for byte in bytes {
        items.push(Value::from(*byte))?;
    }
    Ok(Value::Array(items))
}

/// Returns a pair as a list of two.
fn pair_list(alloc: Global, key: &[u8], value: usize) -> Result<Value, AllocError> {
    let mut items = Vec::new(alloc);
    items.push(bytes_list(alloc, key)?)?;
    items.push(Value::from(value))?;
    Ok(Value::Array(items))
}

/// Returns pairs as a list.
fn pairs_list(alloc: Global, entries: &BTreeMap<Vec<u8>, usize>) -> Result<Value, AllocError> {
    let mut items = Vec::new(alloc);
    for (key, value) in entries {
        items.push(pair_list(alloc, key.as_slice(), *value)?)?;
    }
    Ok(Value::Array(items))
}

/// Returns the value of a map: an object if each key is UTF-8, and otherwise a list of pairs.
fn json_of_map(alloc: Global, entries: &BTreeMap<Vec<u8>, usize>) -> Result<Value, AllocError> {
    match members_of(alloc, entries)? {
        Some(members) => Ok(Value::Object(members)),
        None => pairs_list(alloc, entries),
    }
}

/// Returns the map of the trie in these bytes as a JSON value.
///
/// ```ignore
/// let value = json_of::<Simple>(rt.alloc(), b"ad\x90\x06ef\x90\x11")?;
/// assert_eq!(rt; value.to_string(rt.alloc())?.as_str(), r#"{"ad":22,"adef":33}"#);
/// ```
///
/// If all keys are UTF-8, the value is an object from keys to numbers. Otherwise it is a list of
/// pairs, each a list of two: the list of the key's bytes, and the number. The keys ascend by their
/// bytes.
///
/// The only error is `OutOfMemory`. On malformed bytes the result is unspecified.
pub fn json_of<K: ZeroTrieWithOptions>(alloc: Global, bytes: &[u8]) -> Result<Value, JsonError> {
    match map_of::<K>(alloc, bytes) {
        Ok(entries) => Ok(json_of_map(alloc, &entries)?),
        Err(_) => Err(JsonError::OutOfMemory),
    }
}

impl<S: TrieStore> ZeroTrie<S> {
    /// Returns the map of the trie as a JSON value.
    ///
    /// ```ignore
    /// let trie = ZeroTrie::of_kind::<Hash>(b"\xA1\xFF\x83".as_slice());
    /// let value = trie.to_json_value(rt.alloc())?;
    /// assert_eq!(rt; value.to_string(rt.alloc())?.as_str(), "[[[255],3]]");
    /// ```
    ///
    /// If all keys are UTF-8, the value is an object from keys to numbers. Otherwise it is a list
    /// of pairs, each a list of two: the list of the key's bytes, and the number. The keys ascend
    /// by their bytes.
    ///
    /// The only error is `OutOfMemory`. On malformed bytes the result is unspecified.
    pub fn to_json_value(&self, alloc: Global) -> Result<Value, JsonError> {
        let bytes = self.store.bytes();
        by_flavor!(self.flavor, json_of::<_>(alloc, bytes))
    }
}
