// Made from crates/zerotrie_checks/src/tests/numbers.rt by rust/make: edit that.
//! Spellings of numbers.

use crate::rstd::prelude::*;
use super::*;
use crate::zerotrie_core::{read_varint_meta2, read_varint_meta3, write_varint_meta2, write_varint_meta3};

/// Spellings from the format's own tables, each with the number and the bytes after it.
#[test]
fn latent_sums_of_each_length() -> Result<(), Fail> {
    let rt = HostRuntime;
    let meta2: [(&[u8], usize, &[u8]); 11] = [
        (&[0x23, 0x54], 500, &[]),
        (&[0x20, 0x86, 0x68], 5000, &[]),
        (&[0x1F, 0xAA], 31, &[0xAA]),
        (&[0x20, 0x44], 100, &[]),
        (&[0x3F, 0x7F], 4127, &[]),
        (&[0x20, 0x80, 0x00], 4128, &[]),
        (&[0x20, 0xFF, 0x7F], 20511, &[]),
        (&[0x21, 0x80, 0x00], 20512, &[]),
        (&[0x3F, 0xFF, 0x7F], 528415, &[]),
        (&[0x20, 0x80, 0x80, 0x00], 528416, &[]),
        (&[0x3F, 0xFF, 0xFF, 0x7F], 67637279, &[]),
    ];
    for (bytes, value, rest) in meta2 {
        let (start, behind) = bytes.split_first().ok_or("no lead")?;
        let (read, left) = read_varint_meta2(*start, behind).ok_or("no number")?;
        same(&rt, read, value);
        same(&rt, left, rest);
        let front = bytes
            .get(..bytes.len() - left.len())
            .ok_or("longer than it was")?;
        same(&rt, write_varint_meta2(value).as_slice(), front);
    }
    Ok(())
}

#[test]
#[cfg_attr(not(target_pointer_width = "64"), ignore = "needs 64 bits")]
fn latent_sums_of_values() -> Result<(), Fail> {
    let rt = HostRuntime;
    let meta3: [(&[u8], usize); 5] = [
        (&[0x10, 0x00], 16),
        (&[0x10, 0x80, 0x00], 2064),
        (&[0x10, 0x80, 0x80, 0x00], 264208),
        (&[0x10, 0x80, 0x80, 0x80, 0x00], 33818640),
        (
            &[0x11, 0xEF, 0xEF, 0xEF, 0xEF, 0xEF, 0xEF, 0xEF, 0xEF, 0x6F],
            usize::MAX,
        ),
    ];
    for (bytes, value) in meta3 {
        let (start, behind) = bytes.split_first().ok_or("no lead")?;
        let (read, left) = read_varint_meta3(*start, behind).ok_or("no number")?;
        same(&rt, read, value);
        assert!(left.is_empty());
        same(&rt, write_varint_meta3(value).as_slice(), bytes);
    }
    Ok(())
}

#[test]
fn cut_or_too_large_is_none() {
    let rt = HostRuntime;
    let large = [0xEF, 0xEF, 0xEF, 0xEF, 0xEF, 0xEF, 0xEF, 0xEF, 0x70];
    assert!(read_varint_meta3(0x11, &large).is_none());
    assert!(read_varint_meta2(0x20, &[]).is_none());
    assert!(read_varint_meta3(0x10, &[0x80]).is_none());
}
