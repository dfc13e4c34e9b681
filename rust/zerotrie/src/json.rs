//! Tries as JSON values of serde_json.

use crate::rstd::{alloc::Global, serde_json as own};
use crate::zerotrie_any::{JsonError, ZeroTrieFlavor, bytes_from_json, json_of};
use crate::zerotrie_core::{Ext, Hash, Ignore, Simple};
use crate::{ZeroAsciiIgnoreCaseTrie, ZeroTrie, ZeroTrieExtendedCapacity, ZeroTriePerfectHash, ZeroTrieSimpleAscii, by_kind};
use crate::{any, zerotrie_any};
use alloc::vec::Vec;
use serde_json::{Number, Value};

/// Returns a value as the library has it.
fn taken(value: &Value) -> own::Value {
    match value {
        Value::Null => own::Value::Null,
        Value::Bool(is_true) => own::Value::Bool(*is_true),
        Value::Number(number) => own::Value::Number(taken_number(number)),
        Value::String(text) => own::Value::String(text.clone()),
        Value::Array(items) => own::Value::Array(items.iter().map(taken).collect::<Vec<_>>().into()),
        Value::Object(members) => {
            let members = members.iter().map(|(name, value)| (name.clone(), taken(value)));
            own::Value::Object(members.collect::<alloc::collections::BTreeMap<_, _>>().into())
        }
    }
}

/// Returns the trie that the library built.
fn of_built(built: zerotrie_any::ZeroTrie<crate::rstd::vec::Vec<u8>>) -> ZeroTrie<Vec<u8>> {
    let flavor = built.flavor;
    let store = built.into_store().into_inner();
    match flavor {
        ZeroTrieFlavor::SimpleAscii => ZeroTrieSimpleAscii::from_store(store).into_zerotrie(),
        ZeroTrieFlavor::PerfectHash => ZeroTriePerfectHash::from_store(store).into_zerotrie(),
        ZeroTrieFlavor::ExtendedCapacity => ZeroTrieExtendedCapacity::from_store(store).into_zerotrie(),
    }
}

fn taken_number(number: &Number) -> own::Number {
    match number.as_u64() {
        Some(whole) => own::Number::Whole(whole),
        None => own::Number::Other(number.as_f64().unwrap_or(f64::NAN)),
    }
}

/// Returns a value of the library as one of serde_json.
fn given(value: own::Value) -> Value {
    match value {
        own::Value::Null => Value::Null,
        own::Value::Bool(is_true) => Value::Bool(is_true),
        own::Value::Number(own::Number::Whole(whole)) => whole.into(),
        own::Value::Number(own::Number::Other(number)) => number.into(),
        own::Value::String(text) => Value::String(text),
        own::Value::Array(items) => Value::Array(items.into_iter().map(given).collect()),
        own::Value::Object(members) => members.into_iter().map(|(name, value)| (name, given(value))).collect(),
    }
}

/// Returns the pairs of a trie as a value.
fn value_of(trie: &impl any::Trie) -> Value {
    let value = by_kind!(trie.kind(), json_of::<_>(Global, trie.as_bytes()));
    given(value.expect("memory"))
}

macro_rules! to_json {
    ($($name:ident)*) => {$(
        impl<Store: AsRef<[u8]>> $name<Store> {
            /// Returns the pairs as a JSON value: an object from keys to numbers, or, if a key is no text, a list of pairs of the
            /// bytes of a key and a number.
            ///
            /// ```
            #[doc = concat!("use zerotrie::", stringify!($name), ";")]
            ///
            #[doc = concat!("let trie = ", stringify!($name), "::try_from_iter([(\"in\", 1), (\"into\", 2)])?;")]
            /// assert_eq!(trie.to_json_value(), serde_json::json!({"in": 1, "into": 2}));
            /// # Ok::<(), zerotrie::ZeroTrieBuildError>(())
            /// ```
            pub fn to_json_value(&self) -> Value {
                value_of(self)
            }
        }
    )*};
}
to_json! { ZeroTrieSimpleAscii ZeroAsciiIgnoreCaseTrie ZeroTriePerfectHash ZeroTrieExtendedCapacity ZeroTrie }

macro_rules! from_json {
    ($($name:ident, $value:ident => $built:expr;)*) => {$(
        impl $name<Vec<u8>> {
            /// Builds a trie of the pairs in a JSON value: an object from keys to whole numbers, or a list of pairs of a key,
            /// which is a text or a list of bytes, and a whole number.
            ///
            /// ```
            #[doc = concat!("use zerotrie::", stringify!($name), ";")]
            ///
            #[doc = concat!("let trie = ", stringify!($name), "::try_from_json_value(&serde_json::json!({\"in\": 1, \"into\": 2}))?;")]
            /// assert_eq!(trie.get("into"), Some(2));
            /// # Ok::<(), zerotrie::JsonError>(())
            /// ```
            pub fn try_from_json_value(value: &Value) -> Result<Self, JsonError> {
                let $value = &taken(value);
                Ok($built)
            }
        }
    )*};
}
from_json! {
    ZeroTrieSimpleAscii, value => Self::from_store(bytes_from_json::<Simple>(Global, value)?.into_inner());
    ZeroAsciiIgnoreCaseTrie, value => Self::from_store(bytes_from_json::<Ignore>(Global, value)?.into_inner());
    ZeroTriePerfectHash, value => Self::from_store(bytes_from_json::<Hash>(Global, value)?.into_inner());
    ZeroTrieExtendedCapacity, value => Self::from_store(bytes_from_json::<Ext>(Global, value)?.into_inner());
    ZeroTrie, value => of_built(zerotrie_any::ZeroTrie::try_from_json_value(Global, value)?);
}
