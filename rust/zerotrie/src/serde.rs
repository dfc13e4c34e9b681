//! Tries through serde, in the forms of the crate of ICU4X: a map from keys to values in formats that people read, and bytes in others.

use crate::any::{Trie, sorted};
use crate::{TrieKind, ZeroAsciiIgnoreCaseTrie, ZeroTrie, ZeroTrieExtendedCapacity, ZeroTriePerfectHash, ZeroTrieSimpleAscii};
use alloc::vec::Vec;
use core::{fmt, str};
use serde::de::{Deserialize, Deserializer, Error, MapAccess, SeqAccess, Visitor};
use serde::ser::{Serialize, Serializer};

/// Bytes that are written as a string if people read the format and they are one.
struct Bytes<'a>(&'a [u8]);

impl Serialize for Bytes<'_> {
    fn serialize<S: Serializer>(&self, serializer: S) -> Result<S::Ok, S::Error> {
        match core::str::from_utf8(self.0) {
            Ok(text) if serializer.is_human_readable() => serializer.serialize_str(text),
            _ => serializer.serialize_bytes(self.0),
        }
    }
}

/// A key as it is read.
struct Key(Vec<u8>);

impl<'de> Deserialize<'de> for Key {
    fn deserialize<D: Deserializer<'de>>(deserializer: D) -> Result<Self, D::Error> {
        deserializer.deserialize_any(KeyVisitor)
    }
}

struct KeyVisitor;

impl<'de> Visitor<'de> for KeyVisitor {
    type Value = Key;

    fn expecting(&self, f: &mut fmt::Formatter<'_>) -> fmt::Result {
        f.write_str("a string or bytes")
    }

    fn visit_str<E>(self, text: &str) -> Result<Key, E> {
        Ok(Key(text.as_bytes().to_vec()))
    }

    fn visit_bytes<E>(self, bytes: &[u8]) -> Result<Key, E> {
        Ok(Key(bytes.to_vec()))
    }

    fn visit_seq<A: SeqAccess<'de>>(self, mut bytes: A) -> Result<Key, A::Error> {
        let mut key = Vec::new();
        while let Some(byte) = bytes.next_element()? {
            key.push(byte);
        }
        Ok(Key(key))
    }
}

struct PairsVisitor;

impl<'de> Visitor<'de> for PairsVisitor {
    type Value = Vec<(Vec<u8>, usize)>;

    fn expecting(&self, f: &mut fmt::Formatter<'_>) -> fmt::Result {
        f.write_str("a map from keys to numbers, or a list of pairs of a key and a number")
    }

    fn visit_map<A: MapAccess<'de>>(self, mut map: A) -> Result<Self::Value, A::Error> {
        let mut pairs = Vec::new();
        while let Some((Key(key), value)) = map.next_entry()? {
            pairs.push((key, value));
        }
        Ok(pairs)
    }

    fn visit_seq<A: SeqAccess<'de>>(self, mut list: A) -> Result<Self::Value, A::Error> {
        let mut pairs = Vec::new();
        while let Some((Key(key), value)) = list.next_element()? {
            pairs.push((key, value));
        }
        Ok(pairs)
    }
}

/// Writes the pairs of a trie as a map, or as a list if a key is no text, since such a key names no member.
fn write_pairs<S: Serializer>(trie: &impl Trie, serializer: S) -> Result<S::Ok, S::Error> {
    let pairs: Vec<_> = sorted(trie).collect();
    let written = pairs.iter().map(|(key, value)| (Bytes(key), value));
    if pairs.iter().all(|(key, _)| core::str::from_utf8(key).is_ok()) {
        serializer.collect_map(written)
    } else {
        serializer.collect_seq(written)
    }
}

macro_rules! through_serde {
    ($($name:ident, $kind:ident;)*) => {$(
        impl<Store: AsRef<[u8]>> Serialize for $name<Store> {
            fn serialize<S: Serializer>(&self, serializer: S) -> Result<S::Ok, S::Error> {
                if serializer.is_human_readable() {
                    write_pairs(self, serializer)
                } else {
                    (TrieKind::$kind.tag(), Bytes(self.as_bytes())).serialize(serializer)
                }
            }
        }

        impl<'data, 'de: 'data, Store: From<&'data [u8]> + From<Vec<u8>>> Deserialize<'de> for $name<Store> {
            fn deserialize<D: Deserializer<'de>>(deserializer: D) -> Result<Self, D::Error> {
                if deserializer.is_human_readable() {
                    let pairs = deserializer.deserialize_any(PairsVisitor)?;
                    let trie = $name::try_from_iter(pairs).map_err(Error::custom)?;
                    Ok(trie.convert_store())
                } else {
                    match <(u8, &[u8])>::deserialize(deserializer)? {
                        (tag, bytes) if tag == TrieKind::$kind.tag() => Ok(Self::from_store(bytes.into())),
                        _ => Err(Error::custom("the trie is of another kind")),
                    }
                }
            }
        }
    )*};
}
through_serde! {
    ZeroTrieSimpleAscii, Simple;
    ZeroAsciiIgnoreCaseTrie, Ignore;
    ZeroTriePerfectHash, Hash;
    ZeroTrieExtendedCapacity, Ext;
}

impl<Store: AsRef<[u8]>> Serialize for ZeroTrie<Store> {
    fn serialize<S: Serializer>(&self, serializer: S) -> Result<S::Ok, S::Error> {
        if serializer.is_human_readable() {
            write_pairs(self, serializer)
        } else {
            serializer.serialize_bytes(&self.to_tagged_bytes())
        }
    }
}

impl<'data, 'de: 'data, Store: From<&'data [u8]> + From<Vec<u8>>> Deserialize<'de> for ZeroTrie<Store> {
    fn deserialize<D: Deserializer<'de>>(deserializer: D) -> Result<Self, D::Error> {
        if deserializer.is_human_readable() {
            let pairs = deserializer.deserialize_any(PairsVisitor)?;
            let trie = ZeroTrie::try_from_iter(pairs).map_err(Error::custom)?;
            return Ok(trie.convert_store());
        }
        let (tag, bytes) = <&[u8]>::deserialize(deserializer)?.split_first().unwrap_or((&u8::MAX, &[]));
        let trie = TrieKind::of_tag(*tag).and_then(|kind| ZeroTrie::of_kind(kind, bytes));
        let trie = trie.ok_or_else(|| Error::custom("the bytes begin with the number of no kind"))?;
        Ok(trie.convert_store())
    }
}
