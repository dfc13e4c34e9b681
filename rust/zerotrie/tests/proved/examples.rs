// Made from the examples of the docs by rust/make: edit that.
#![cfg_attr(rustfmt, rustfmt::skip)]
#![deny(unused_must_use)]
use crate::rstd::prelude::*;
use crate::rstd::test::Fail;

#[test]
fn of_zerotrie_any_1() -> Result<(), Fail> {
    let rt = HostRuntime;
    use {crate::rstd::examples::*, crate::zerotrie_any::*, crate::zerotrie_base::*, crate::zerotrie_core::*, crate::zerotrie_build::*, crate::rstd::serde_json::Value};
    let value = Value::from_str(rt.alloc(), r#"[["ad",22],["adef"]]"#)?;
    assert!(why_json_refused(&value) == Some(NoPair::Item(2)));
    Ok(())
}

#[test]
fn of_zerotrie_any_2() -> Result<(), Fail> {
    let rt = HostRuntime;
    use {crate::rstd::examples::*, crate::zerotrie_any::*, crate::zerotrie_base::*, crate::zerotrie_core::*, crate::zerotrie_build::*, crate::rstd::serde_json::Value};
    let value = Value::from_str(rt.alloc(), r#"{"ad":22,"adef":33}"#)?;
    let bytes = bytes_from_json::<Simple>(rt.alloc(), &value)?;
    assert_eq!(bytes.as_slice(), b"ad\x90\x06ef\x90\x11".as_slice());

    for text in [r#"{"a":1.5}"#, r#"{"a":-1}"#, r#"[["a"]]"#, "1"] {
        let value = Value::from_str(rt.alloc(), text)?;
        assert!(bytes_from_json::<Simple>(rt.alloc(), &value) == Err(JsonError::Shape));
    }
    Ok(())
}

#[test]
fn of_zerotrie_any_3() -> Result<(), Fail> {
    let rt = HostRuntime;
    use {crate::rstd::examples::*, crate::zerotrie_any::*, crate::zerotrie_base::*, crate::zerotrie_core::*, crate::zerotrie_build::*, crate::rstd::serde_json::Value};
    let value = Value::from_str(rt.alloc(), r#"[["ad",22],[[255],3]]"#)?;
    let trie = ZeroTrie::try_from_json_value(rt.alloc(), &value)?;
    assert_eq!(trie.get(b"\xFF"), Some(3));
    Ok(())
}

#[test]
fn of_zerotrie_any_4() -> Result<(), Fail> {
    let rt = HostRuntime;
    use {crate::rstd::examples::*, crate::zerotrie_any::*, crate::zerotrie_base::*, crate::zerotrie_core::*, crate::zerotrie_build::*, crate::rstd::serde_json::Value};
    let value = json_of::<Simple>(rt.alloc(), b"ad\x90\x06ef\x90\x11")?;
    assert_eq!(value.to_string(rt.alloc())?.as_str(), r#"{"ad":22,"adef":33}"#);
    Ok(())
}

#[test]
fn of_zerotrie_any_5() -> Result<(), Fail> {
    let rt = HostRuntime;
    use {crate::rstd::examples::*, crate::zerotrie_any::*, crate::zerotrie_base::*, crate::zerotrie_core::*, crate::zerotrie_build::*, crate::rstd::serde_json::Value};
    let trie = ZeroTrie::of_kind::<Hash>(b"\xA1\xFF\x83".as_slice());
    let value = trie.to_json_value(rt.alloc())?;
    assert_eq!(value.to_string(rt.alloc())?.as_str(), "[[[255],3]]");
    Ok(())
}

#[test]
fn of_zerotrie_any_6() -> Result<(), Fail> {
    let rt = HostRuntime;
    use {crate::rstd::examples::*, crate::zerotrie_any::*, crate::zerotrie_base::*, crate::zerotrie_core::*, crate::zerotrie_build::*, crate::rstd::serde_json::Value};
    let value = Value::from_str(rt.alloc(), r#"{"port":8080,"share":1.5}"#)?;
    let error = bytes_from_json::<Simple>(rt.alloc(), &value).err();
    assert!(error == Some(JsonError::Shape));
    Ok(())
}

#[test]
fn of_zerotrie_ascii_7() -> Result<(), Fail> {
    let rt = HostRuntime;
    use {crate::rstd::examples::*, crate::zerotrie_ascii::*, crate::zerotrie_core::*, crate::zerotrie_build::*, crate::zerotrie_any::*, crate::rstd::serde_json::Value};
    let trie = ZeroTrieSimpleAscii::from_bytes(b"abc\x80def\x81");
    let value = trie.to_json_value(rt.alloc())?;
    assert_eq!(value.to_string(rt.alloc())?.as_str(), r#"{"abc":0,"abcdef":1}"#);
    Ok(())
}

#[test]
fn of_zerotrie_ascii_8() -> Result<(), Fail> {
    let rt = HostRuntime;
    use {crate::rstd::examples::*, crate::zerotrie_ascii::*, crate::zerotrie_core::*, crate::zerotrie_build::*, crate::zerotrie_any::*, crate::rstd::serde_json::Value};
    let value = Value::from_str(rt.alloc(), r#"{"ad":22,"adef":33}"#)?;
    let trie = ZeroTrieSimpleAscii::try_from_json_value(rt.alloc(), &value)?;
    assert_eq!(trie.get(b"adef"), Some(33));
    Ok(())
}

#[test]
fn of_zerotrie_hashed_9() -> Result<(), Fail> {
    let rt = HostRuntime;
    use {crate::rstd::examples::*, crate::zerotrie_hashed::*, crate::zerotrie_core::*, crate::zerotrie_build::*, crate::zerotrie_any::*, crate::rstd::serde_json::Value};
    let trie = ZeroTriePerfectHash::from_bytes(b"\xA1\xFF\x83");
    let value = trie.to_json_value(rt.alloc())?;
    assert_eq!(value.to_string(rt.alloc())?.as_str(), "[[[255],3]]");
    Ok(())
}

#[test]
fn of_zerotrie_hashed_10() -> Result<(), Fail> {
    let rt = HostRuntime;
    use {crate::rstd::examples::*, crate::zerotrie_hashed::*, crate::zerotrie_core::*, crate::zerotrie_build::*, crate::zerotrie_any::*, crate::rstd::serde_json::Value};
    let value = Value::from_str(rt.alloc(), r#"{"ad":22,"adef":33}"#)?;
    let trie = ZeroTriePerfectHash::try_from_json_value(rt.alloc(), &value)?;
    assert_eq!(trie.get(b"adef"), Some(33));
    Ok(())
}
