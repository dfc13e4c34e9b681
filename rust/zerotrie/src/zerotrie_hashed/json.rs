// Made from crates/zerotrie_hashed/src/json.rt by rust/make: edit that.
//! Tries as JSON values.

use crate::rstd::prelude::*;
use crate::zerotrie_hashed::trie::{HashedKind, HashedTrie};
use crate::rstd::serde_json::Value;
use crate::rstd::alloc::Global;
use crate::zerotrie_any::{JsonError, bytes_from_json, json_of};
use crate::zerotrie_core::TrieStore;

impl<K: HashedKind, S: TrieStore> HashedTrie<K, S> {
    /// Returns the map of the trie as a JSON value.
    ///
    /// ```ignore
    /// let trie = ZeroTriePerfectHash::from_bytes(b"\xA1\xFF\x83");
    /// let value = trie.to_json_value(rt.alloc())?;
    /// assert_eq!(rt; value.to_string(rt.alloc())?.as_str(), "[[[255],3]]");
    /// ```
    ///
    /// If all keys are UTF-8, the value is an object from keys to numbers. Otherwise it is a list
    /// of pairs, each a list of two: the list of the key's bytes, and the number. The keys ascend
    /// by their bytes.
    ///
    /// The only error is `OutOfMemory`. On malformed bytes the result is unspecified.
    pub fn to_json_value(&self, alloc: Global) -> Result<Value, JsonError> {
        json_of::<K>(alloc, self.as_bytes())
    }
}

impl<K: HashedKind> HashedTrie<K, Vec<u8>> {
    /// Builds the trie of the pairs in a JSON value.
    ///
    /// ```ignore
    /// let value = Value::from_str(rt.alloc(), r#"{"ad":22,"adef":33}"#)?;
    /// let trie = ZeroTriePerfectHash::try_from_json_value(rt.alloc(), &value)?;
    /// assert_eq!(rt; trie.get(b"adef"), Some(33));
    /// ```
    ///
    /// The value is an object from keys to numbers, or a list of pairs in any order. A pair is a
    /// list of exactly two, a key and a number. A key is a string or a list of bytes. Numbers are
    /// whole, from 0 to 2^64 - 1.
    ///
    /// The error is `Shape` if the value is anything else, and `why_json_refused` then returns what
    /// is no pair in it. It is `Build` with the reason if `try_from_iter` of the pairs returns an
    /// error, and `OutOfMemory` if an allocation fails.
    pub fn try_from_json_value(alloc: Global, value: &Value) -> Result<Self, JsonError> {
        let store = bytes_from_json::<K>(alloc, value)?;
        Ok(HashedTrie::from_store(store))
    }
}
