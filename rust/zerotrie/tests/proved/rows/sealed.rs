// Made from tests/rows/sealed.rt.in by rust/make: edit that.
//! Damaged sealed files: each one is an error.

use crate::rstd::prelude::*;
use super::*;
use crate::zerotrie_base::TrieKind;
use crate::zerotrie_sealed::{HEADER_LEN, SealError, crc32c, header_of, open, seal};

const TRIE: &[u8] = b"\xC2bf\x0Aa\xC2rz\x01\x82zoo\x83oo\x81";

const KINDS: [TrieKind; 4] = [
    TrieKind::Simple,
    TrieKind::Ignore,
    TrieKind::Hash,
    TrieKind::Ext,
];

/// Returns a long trie's bytes, which need not be valid.
fn long_bytes(alloc: Global, len: usize) -> Result<Vec<u8>, AllocError> {
    let mut bytes = Vec::new(alloc);
    let mut state = 1u32;
    for _ in 0..len {
        state = state.wrapping_mul(1_664_525).wrapping_add(1_013_904_223);
        bytes.push((state >> 24) as u8)?;
    }
    Ok(bytes)
}

#[test]
fn published_checksums() -> Result<(), Fail> {
    let rt = HostRuntime;
    let mut ascending = [0u8; 32];
    for (place, byte) in ascending.iter_mut().enumerate() {
        *byte = place as u8;
    }
    same(&rt, crc32c(b""), 0);
    same(&rt, crc32c(b"123456789"), 0xE306_9283);
    same(&rt, crc32c(&[0; 32]), 0x8A91_36AA);
    same(&rt, crc32c(&[0xFF; 32]), 0x62A8_AB43);
    same(&rt, crc32c(&ascending), 0x46DD_794E);
    Ok(())
}

#[test]
fn each_flipped_bit_is_an_error() -> Result<(), Fail> {
    let rt = HostRuntime;
    let mut tried = 0;
    for len in [0, 1, 17, 300, 1000] {
        let trie = long_bytes(rt.alloc(), len)?;
        for kind in KINDS {
            let mut file = seal(rt.alloc(), kind, trie.as_slice())?;
            same(&rt, open(file.as_slice()).map(|it| it.trie), Ok(trie.as_slice()));
            for place in 0..file.len() {
                for bit in 0..8 {
                    file[place] ^= 1 << bit;
                    holds(&rt, open(file.as_slice()).is_err());
                    file[place] ^= 1 << bit;
                    tried += 1;
                }
            }
        }
    }
    holds(&rt, tried == 32 * (5 * HEADER_LEN + 1318));
    Ok(())
}

#[test]
fn each_cut_is_an_error() -> Result<(), Fail> {
    let rt = HostRuntime;
    let trie = long_bytes(rt.alloc(), 1000)?;
    let file = seal(rt.alloc(), TrieKind::Hash, trie.as_slice())?;
    for len in 0..file.len() {
        let error = if len < 8 {
            SealError::NoMagic
        } else {
            SealError::CutShort
        };
        same(&rt, open(&file[..len]).err(), Some(error));
        holds(&rt, open(&file[len + 1..]).is_err());
    }
    Ok(())
}

#[test]
fn each_join_is_an_error() -> Result<(), Fail> {
    let rt = HostRuntime;
    let first = seal(rt.alloc(), TrieKind::Simple, TRIE)?;
    let second = seal(rt.alloc(), TrieKind::Hash, b"a\x85")?;
    for len in 0..=second.len() {
        let mut joined = Vec::from_slice(rt.alloc(), first.as_slice())?;
        joined.extend_from_slice(&second[..len])?;
        let error = if len == 0 {
            None
        } else {
            Some(SealError::TooLong)
        };
        same(&rt, open(joined.as_slice()).err(), error);
    }
    Ok(())
}

#[test]
fn the_header_of_one_trie_before_another() -> Result<(), Fail> {
    let rt = HostRuntime;
    let mut file = Vec::from_slice(rt.alloc(), &header_of(TrieKind::Simple, TRIE))?;
    for byte in TRIE.iter().rev() {
        file.push(*byte)?;
    }
    same(&rt, open(file.as_slice()).err(), Some(SealError::Checksum));
    Ok(())
}

#[test]
fn each_field_has_its_error() -> Result<(), Fail> {
    let rt = HostRuntime;
    let mut file = seal(rt.alloc(), TrieKind::Simple, TRIE)?;
    file[8] = 2;
    same(&rt, open(file.as_slice()).err(), Some(SealError::UnknownVersion(2)));
    file[8] = 1;
    file[11] = 1;
    same(&rt, open(file.as_slice()).err(), Some(SealError::UnknownKind(256)));
    file[11] = 0;
    file[10] = 3;
    same(&rt, open(file.as_slice()).err(), Some(SealError::Checksum));
    Ok(())
}
