// Made from crates/zerotrie_reverse/src/number.rt by rust/make: edit that.
//! Numbers of variable length, read from any bytes.

/// Returns the number with one more digit, if it is below 2^64.
#[inline(always)]
fn with_digit(latent: u8, value: usize, byte: u8) -> Option<usize> {
    value
        .checked_mul(128)?
        .checked_add((byte % 128) as usize + latent as usize)
}

/// Reads the trail bytes of a number that begins with a digit. Returns the number and what follows
/// it.
#[inline]
fn number_from(latent: u8, digit: usize, trail: &[u8]) -> Option<(usize, &[u8])> {
    let mut value = digit;
    let mut rest = trail;
    while let Some((byte, after)) = rest.split_first() {
        value = with_digit(latent, value, *byte)?;
        if *byte < 128 {
            return Some((value, after));
        }
        rest = after;
    }
    None
}

/// Reads a number by its lead and the bytes after it.
#[inline(always)]
pub(in crate::made::zerotrie_reverse) fn number_after(latent: u8, lead: u8, rest: &[u8]) -> Option<(usize, &[u8])> {
    let digit = (lead % latent) as usize;
    if lead / latent % 2 == 0 {
        return Some((digit, rest));
    }
    number_from(latent, digit, rest)
}
