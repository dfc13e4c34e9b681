// Made from crates/zerotrie_checks/src/tests/refusal.rt by rust/make: edit that.
//! Which keys show why a build returns an error.

use crate::rstd::prelude::*;
use super::*;
use crate::rstd::alloc::AllocError;
use crate::zerotrie_build::{Refusal, why_iter_refused, why_slice_refused};
use crate::zerotrie_core::Ignore;

const CASE: &str = "begin alike but for the case of a letter: lower-case the keys first";

/// Returns the sentence, or nothing if no keys show a cause.
fn text_of(alloc: Global, answer: Option<Refusal>) -> Result<String, AllocError> {
    match answer {
        Some(refusal) => Ok::<_, crate::rstd::alloc::AllocError>(format!("{refusal}")),
        None => Ok(crate::rstd::string::new(alloc)),
    }
}

#[test]
fn keys_of_slices() -> Result<(), Fail> {
    let rt = HostRuntime;
    let rows: [(&[(&[u8], usize)], &str, &str); 6] = [
        (&[(b"A", 1), (b"B", 2), (b"bc", 3)], "keys 1 and 2 ", CASE),
        (
            &[(b"DAV", 1), (b"DB", 2), (b"Date", 3)],
            "keys 0 and 2 ",
            CASE,
        ),
        (
            &[(b"Ac", 1), (b"Ad", 2), (b"Host", 3), (b"ae", 4)],
            "keys 1 and 3 ",
            CASE,
        ),
        (
            &[(b"a", 1), (b"b", 2), (b"b", 3)],
            "key 2 is not above key 1: ",
            "sort the keys by their bytes, each once",
        ),
        (
            &[(b"a", 1), (b"\xC3", 2)],
            "key 1 is not ASCII: ",
            "take a kind of trie for keys of any bytes",
        ),
        (&[(b"A", 1), (b"b", 2)], "", ""),
    ];
    for (items, keys, rest) in rows {
        let answer = text_of(rt.alloc(), why_slice_refused::<Ignore, _>(items))?;
        same(
            &rt,
            answer.as_str(),
            format!("{keys}{rest}").as_str(),
        );
    }
    Ok(())
}

#[test]
fn keys_of_iterators() -> Result<(), Fail> {
    let rt = HostRuntime;
    let rows: [(&[(&[u8], usize)], &str, &str); 4] = [
        (
            &[(b"to", 1), (b"in", 2), (b"to", 3)],
            "keys 0 and 2 are the same: ",
            "give each key once",
        ),
        (
            &[(b"b", 1), (b"Date", 2), (b"a", 3), (b"DAV", 4)],
            "keys 1 and 3 ",
            CASE,
        ),
        (
            &[(b"b", 1), (b"\xC3", 2), (b"a", 3)],
            "key 1 is not ASCII: ",
            "take a kind of trie for keys of any bytes",
        ),
        (&[(b"b", 1), (b"A", 2)], "", ""),
    ];
    for (items, keys, rest) in rows {
        let answer = text_of(
            rt.alloc(),
            why_iter_refused::<Ignore, _>(rt.alloc(), items)?,
        )?;
        same(
            &rt,
            answer.as_str(),
            format!("{keys}{rest}").as_str(),
        );
    }
    Ok(())
}
