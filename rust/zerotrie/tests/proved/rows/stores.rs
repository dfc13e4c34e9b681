// Made from tests/rows/stores.rt.in by rust/make: edit that.
//! Stores and keys.

use crate::rstd::prelude::*;
use super::*;
use crate::rstd::borrow::CowSlice;
use crate::zerotrie_base::{ConvertStore, TrieKey, TrieStore};

fn bytes_of<S: TrieStore>(store: &S) -> &[u8] {
    store.bytes()
}

fn key_of<K: TrieKey>(pair: &(K, usize)) -> &[u8] {
    pair.0.key_bytes()
}

#[test]
fn bytes_of_each_store() -> Result<(), Fail> {
    let rt = HostRuntime;
    let store = [0x61, 0x81];
    same(&rt, store.bytes().len(), 2);
    let bytes = b"a\x81".as_slice();
    let owned = Vec::from_slice(rt.alloc(), bytes)?;
    same(&rt, bytes_of(&store), bytes);
    same(&rt, bytes_of(&bytes), bytes);
    same(&rt, bytes_of(&owned), bytes);
    same(&rt, bytes_of(&owned.into_boxed_slice()), bytes);
    Ok(())
}

#[test]
fn convert_keeps_the_bytes() -> Result<(), Fail> {
    let rt = HostRuntime;
    let store: CowSlice<u8> = ConvertStore::convert(Vec::from_slice(rt.alloc(), b"a\x81")?);
    same(&rt, store.bytes(), b"a\x81".as_slice());
    let lent: CowSlice<u8> = ConvertStore::convert(b"a\x81".as_slice());
    same(&rt, bytes_of(&lent), b"a\x81".as_slice());
    Ok(())
}

#[test]
fn a_trie_over_other_stores() -> Result<(), Fail> {
    let rt = HostRuntime;
    let owned = ZeroTrieSimpleAscii::from_bytes(b"abc\x85".as_slice()).to_owned(rt.alloc())?;
    same(&rt, owned.get(b"abc"), Some(5));
    let shared: ZeroTrieSimpleAscii<CowSlice<'_, u8>> = owned.convert_store();
    same(&rt, shared.get(b"abc"), Some(5));
    same(&rt, shared.as_bytes(), b"abc\x85".as_slice());
    Ok(())
}

#[test]
fn key_bytes_of_each_key() -> Result<(), Fail> {
    let rt = HostRuntime;
    same(&rt, "ad".key_bytes(), b"ad".as_slice());
    same(&rt, b"ad".key_bytes(), b"ad".as_slice());
    same(&rt, key_of(&("ab", 1)), b"ab".as_slice());
    same(&rt, key_of(&(b"ab", 1)), b"ab".as_slice());
    same(&rt, key_of(&(b"ab".as_slice(), 1)), b"ab".as_slice());
    same(
        &rt,
        key_of(&(Vec::from_slice(rt.alloc(), b"ab")?, 1)),
        b"ab".as_slice(),
    );
    Ok(())
}
