// Made from crates/zerotrie_base/src/varint.rt by rust/make: edit that.
//! Numbers of variable length.
//!
//! A number is a lead byte and trail bytes. The lead has metadata in its highest bits, then a bit
//! that says whether a byte follows, then the first bits of the value. A trail byte has such a bit
//! and seven bits of the value. The least number with one more byte is the next after the greatest
//! with fewer, so each number below 2^64 has one spelling, of at most ten bytes.
//!
//! | Form | Metadata | Value bits of the lead | Used for |
//! |---|---|---|---|
//! | `meta3` | 3 bits | 4 | values, lengths of spans |
//! | `meta2` | 2 bits | 5 | heads of branches |

use crate::rstd::arrayvec::ArrayVec;

/// Reads a number of two to four bytes, as most longer ones are. None of them is too large, so the
/// only test is where it ends.
#[inline(always)]
fn read_few(latent: u8, start: u8, rest: &[u8]) -> Option<(usize, &[u8])> {
    let (first, rest) = rest.split_first()?;
    let value = 128 * (start % latent) as usize + (*first % 128) as usize + latent as usize;
    if *first < 128 {
        return Some((value, rest));
    }
    let (second, rest) = rest.split_first()?;
    let value = 128 * value + (*second % 128) as usize + latent as usize;
    if *second < 128 {
        return Some((value, rest));
    }
    let (third, rest) = rest.split_first()?;
    let value = 128 * value + (*third % 128) as usize + latent as usize;
    if *third < 128 {
        return Some((value, rest));
    }
    None
}

/// Reads a number of the form whose least number of two bytes is `latent`.
#[inline(always)]
fn read_number(latent: u8, start: u8, rest: &[u8]) -> Option<(usize, &[u8])> {
    let mut value = (start % latent) as usize;
    if start / latent % 2 == 0 {
        return Some((value, rest));
    }
    if let Some(found) = read_few(latent, start, rest) {
        return Some(found);
    }
    for (i, t) in rest.iter().enumerate() {
        value = value
            .checked_mul(128)?
            .checked_add((t % 128) as usize + latent as usize)?;
        if *t < 128 {
            return Some((value, &rest[i + 1..]));
        }
    }
    None
}

/// Reads a number with three bits of metadata, which are ignored. Returns the number and the bytes
/// after it.
///
/// ```
/// # use zerotrie::{rstd::examples::*, zerotrie_base::*};
/// assert_eq!(read_varint_meta3(0x10, &[0x00, 0x85]), Some((16, [0x85].as_slice())));
/// # Ok::<(), Fail>(())
/// ```
///
/// Returns `None` exactly if `start` and `rest` begin with no number below 2^64: they are cut off,
/// or the number is too large.
#[inline]
pub fn read_varint_meta3(start: u8, rest: &[u8]) -> Option<(usize, &[u8])> {
    read_number(16, start, rest)
}

/// Reads a number with two bits of metadata, which are ignored. Returns the number and the bytes
/// after it.
///
/// ```
/// # use zerotrie::{rstd::examples::*, zerotrie_base::*};
/// assert_eq!(read_varint_meta2(0x20, &[0x44]), Some((100, [].as_slice())));
/// # Ok::<(), Fail>(())
/// ```
///
/// Returns `None` exactly if `start` and `rest` begin with no number below 2^64.
#[inline]
pub fn read_varint_meta2(start: u8, rest: &[u8]) -> Option<(usize, &[u8])> {
    read_number(32, start, rest)
}

/// Returns the bytes of a number, from the last to the lead, in the form whose least number of two
/// bytes is `latent`.
fn bytes_backward(latent: u8, v: usize) -> ArrayVec<u8, 10> {
    let mut out = ArrayVec::new();
    let mut value = v;
    let mut extended = 0;
    while value >= latent as usize {
        value -= latent as usize;
        out.push((value % 128) as u8 + extended);
        extended = 128;
        value /= 128;
    }
    let extender = if extended == 0 { 0 } else { latent };
    out.push(value as u8 + extender);
    out
}

/// Like `bytes_backward`, from the lead to the last.
fn write_number(latent: u8, v: usize) -> ArrayVec<u8, 10> {
    let mut out = bytes_backward(latent, v);
    out.as_mut_slice().reverse();
    out
}

/// Returns the spelling of a number with three bits of metadata, all 0, in at most ten bytes.
///
/// ```
/// # use zerotrie::{rstd::examples::*, zerotrie_base::*};
/// assert_eq!(write_varint_meta3(16).as_slice(), [0x10, 0x00].as_slice());
/// # Ok::<(), Fail>(())
/// ```
pub fn write_varint_meta3(v: usize) -> ArrayVec<u8, 10> {
    write_number(16, v)
}

/// Returns the spelling of a number with two bits of metadata, both 0, in at most ten bytes.
///
/// ```
/// # use zerotrie::{rstd::examples::*, zerotrie_base::*};
/// assert_eq!(write_varint_meta2(500).as_slice(), [0x23, 0x54].as_slice());
/// # Ok::<(), Fail>(())
/// ```
pub fn write_varint_meta2(v: usize) -> ArrayVec<u8, 10> {
    write_number(32, v)
}
