// Made from tests/rows/json.rt.in by rust/make: edit that.
//! JSON values that are no pairs, and pairs that make no trie.

use crate::rstd::prelude::*;
use super::*;
use crate::rstd::serde_json::Value;
use crate::zerotrie_all::{
    AsciiKind, AsciiTrie, Ignore, JsonError, NoPair, Simple, ZeroTrieBuildError, why_json_refused,
};

/// Returns why a trie is not read from a JSON text, and the part that is no pair.
fn refusal_of<K: AsciiKind>(
    alloc: Global,
    text: &str,
    no_pair: Option<NoPair<'_>>,
) -> Result<JsonError, Fail> {
    let value = Value::from_str(alloc, text)?;
    let error = AsciiTrie::<K, Vec<u8>>::try_from_json_value(alloc, &value).err();
    if why_json_refused(&value) == no_pair {
        Ok(error.ok_or("taken")?)
    } else {
        Err(Fail::from("another part"))
    }
}

#[test]
fn values_that_are_no_pairs() -> Result<(), Fail> {
    let rt = HostRuntime;
    let rows = [
        (r#"{"a":1.5}"#, Some(NoPair::Member("a"))),
        (r#"{"a":-1}"#, Some(NoPair::Member("a"))),
        (r#"{"b":true,"a":0,"a b":-0}"#, Some(NoPair::Member("a b"))),
        (
            r#"{"a\"":18446744073709551616}"#,
            Some(NoPair::Member("a\"")),
        ),
        (r#"[["a"]]"#, Some(NoPair::Item(1))),
        (r#"[["a",1,2]]"#, Some(NoPair::Item(1))),
        (r#"[["a",1],[[256],1],2]"#, Some(NoPair::Item(2))),
        (r#"[["a",1],[[1.0],1]]"#, Some(NoPair::Item(2))),
        (r#"[{"a":1}]"#, Some(NoPair::Item(1))),
        (r#""a""#, None),
        ("null", None),
        ("1", None),
    ];
    for (text, no_pair) in rows {
        same(
            &rt,
            refusal_of::<Simple>(rt.alloc(), text, no_pair)?,
            JsonError::Shape,
        );
    }
    Ok(())
}

#[test]
fn pairs_that_make_no_trie() -> Result<(), Fail> {
    let rt = HostRuntime;
    let alloc = rt.alloc();
    let twice = refusal_of::<Simple>(alloc, r#"[["a",1],[[97],2]]"#, None)?;
    same(
        &rt,
        twice,
        JsonError::Build(ZeroTrieBuildError::DuplicateKey),
    );
    let foreign = refusal_of::<Simple>(alloc, r#"{"å":1}"#, None)?;
    same(
        &rt,
        foreign,
        JsonError::Build(ZeroTrieBuildError::NonAsciiError),
    );
    let mixed = refusal_of::<Ignore>(alloc, r#"{"A":1,"a":2}"#, None)?;
    same(&rt, mixed, JsonError::Build(ZeroTrieBuildError::MixedCase));
    Ok(())
}
