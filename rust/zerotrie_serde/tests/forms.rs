//! Tries through serde and as JSON values.

use serde_json::json;
use std::borrow::Cow;
use zerotrie::{
    JsonError, ZeroAsciiIgnoreCaseTrie, ZeroTrie, ZeroTrieBuildError, ZeroTrieExtendedCapacity, ZeroTriePerfectHash,
    ZeroTrieSimpleAscii,
};

type Fail = Box<dyn std::error::Error>;

const PAIRS: [(&str, usize); 3] = [("bar", 2), ("bazzoo", 3), ("foo", 1)];
const TEXT: &str = r#"{"bar":2,"bazzoo":3,"foo":1}"#;

/// A trie of each type is a map in JSON, and a number with bytes in bincode, which are read back, borrowed too.
macro_rules! each_type {
    ($($test:ident, $name:ident, $tag:literal;)*) => {$(
        #[test]
        fn $test() -> Result<(), Fail> {
            let trie = $name::try_from_iter(PAIRS)?;
            assert_eq!(serde_json::to_string(&trie)?, TEXT);
            assert_eq!(serde_json::from_str::<$name<Vec<u8>>>(TEXT)?, trie);
            assert_eq!(trie.to_json_value(), serde_json::to_value(&trie)?);
            assert_eq!($name::try_from_json_value(&json!([["foo", 1], ["bar", 2], [[98, 97, 122, 122, 111, 111], 3]]))?, trie);

            let bytes = bincode::serialize(&trie)?;
            assert_eq!(bytes, bincode::serialize(&($tag as u8, trie.as_bytes()))?);
            assert_eq!(bincode::deserialize::<$name<Vec<u8>>>(&bytes)?, trie);
            let cow: $name<Cow<[u8]>> = bincode::deserialize(&bytes)?;
            assert!(matches!(cow.into_store(), Cow::Borrowed(_)));
            let another = bincode::serialize(&(9u8, trie.as_bytes()))?;
            assert!(bincode::deserialize::<$name<Vec<u8>>>(&another).is_err());
            Ok(())
        }
    )*};
}
each_type! {
    simple, ZeroTrieSimpleAscii, 0;
    ignore, ZeroAsciiIgnoreCaseTrie, 8;
    hash, ZeroTriePerfectHash, 3;
    ext, ZeroTrieExtendedCapacity, 7;
}

#[test]
fn any() -> Result<(), Fail> {
    let trie = ZeroTrie::try_from_iter(PAIRS)?;
    assert_eq!(serde_json::to_string(&trie)?, TEXT);
    assert_eq!(serde_json::from_str::<ZeroTrie<Vec<u8>>>(TEXT)?, trie);
    assert_eq!(ZeroTrie::try_from_json_value(&trie.to_json_value())?, trie);

    let bytes = bincode::serialize(&trie)?;
    assert_eq!(bytes[8..], trie.to_tagged_bytes());
    assert_eq!(bincode::deserialize::<ZeroTrie<Vec<u8>>>(&bytes)?, trie);
    for none in [&[][..], &[9, b'a', 0x85]] {
        assert!(bincode::deserialize::<ZeroTrie<Vec<u8>>>(&bincode::serialize(none)?).is_err());
    }
    Ok(())
}

/// Keys that are no text are lists of bytes, and then so is the map.
#[test]
fn bytes() -> Result<(), Fail> {
    let trie = ZeroTriePerfectHash::try_from_iter([(&b"\xff"[..], 1), (b"a", 2)])?;
    assert_eq!(serde_json::to_string(&trie)?, r#"[["a",2],[[255],1]]"#);
    assert_eq!(serde_json::from_str::<ZeroTriePerfectHash<Vec<u8>>>(r#"[["a",2],[[255],1]]"#)?, trie);
    assert_eq!(trie.to_json_value(), json!([[[97], 2], [[255], 1]]));
    assert_eq!(ZeroTriePerfectHash::try_from_json_value(&trie.to_json_value())?, trie);
    Ok(())
}

/// What is no map of the type is an error.
#[test]
fn refused() {
    for text in [r#"{"a":-1}"#, r#"{"a":1.5}"#, r#"{"a":null}"#, "7", r#"[["a"]]"#, r#"{"a":1,"a":2}"#, r#"{"å":1}"#] {
        assert!(serde_json::from_str::<ZeroTrieSimpleAscii<Vec<u8>>>(text).is_err(), "{text}");
    }
    let of_value = ZeroTrieSimpleAscii::try_from_json_value;
    assert_eq!(of_value(&json!({"a": 1.5})), Err(JsonError::Shape));
    assert_eq!(of_value(&json!({"å": 1})), Err(JsonError::Build(ZeroTrieBuildError::NonAsciiError)));
}
