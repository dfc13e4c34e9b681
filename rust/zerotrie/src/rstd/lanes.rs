//! Comparisons of sixteen bytes, whose results are bits: by SSE2 on x86-64; elsewhere, and with the feature `portable`, in safe code,
//! by which look-ups take a fifth longer there. This file and a cast of `trie.rs` alone have unsafe code.
pub use machine::{eq, ge};

#[cfg(all(target_arch = "x86_64", not(feature = "portable")))]
#[allow(unsafe_code)]
mod machine {
    use core::arch::x86_64::*;

    #[inline(always)]
    fn load(bytes: &[u8; 16]) -> __m128i {
        // SAFETY: there are sixteen bytes, and they need not be aligned.
        unsafe { _mm_loadu_si128(bytes.as_ptr().cast()) }
    }

    #[inline(always)]
    pub fn eq(left: &[u8; 16], right: &[u8; 16]) -> u16 {
        // SAFETY: every x86-64 processor has SSE2.
        unsafe { _mm_movemask_epi8(_mm_cmpeq_epi8(load(left), load(right))) as u16 }
    }

    #[inline(always)]
    pub fn ge(left: &[u8; 16], right: &[u8; 16]) -> u16 {
        // SAFETY: every x86-64 processor has SSE2.
        unsafe { _mm_movemask_epi8(_mm_cmpeq_epi8(_mm_max_epu8(load(left), load(right)), load(left))) as u16 }
    }
}

#[cfg(any(feature = "portable", not(target_arch = "x86_64")))]
mod machine {
    const HIGH: u64 = 0x8080_8080_8080_8080;

    /// Compares eight bytes at a time, by a function that returns the highest bit of each byte.
    #[inline(always)]
    fn by_eights(left: &[u8; 16], right: &[u8; 16], compare: impl Fn(u64, u64) -> u64) -> u16 {
        let (left, right) = (u128::from_le_bytes(*left), u128::from_le_bytes(*right));
        let gathered = |bits: u64| (bits >> 7).wrapping_mul(0x0102_0408_1020_4080) >> 56;
        let low = gathered(compare(left as u64, right as u64));
        let high = gathered(compare((left >> 64) as u64, (right >> 64) as u64));
        (low | high << 8) as u16
    }

    #[inline(always)]
    pub fn eq(left: &[u8; 16], right: &[u8; 16]) -> u16 {
        by_eights(left, right, |left, right| {
            let differ = left ^ right;
            !(((differ & !HIGH) + !HIGH) | differ) & HIGH
        })
    }

    /// Compares the low seven bits of each byte, and then the highest ones.
    #[inline(always)]
    pub fn ge(left: &[u8; 16], right: &[u8; 16]) -> u16 {
        by_eights(left, right, |left, right| {
            let low = (left | HIGH) - (right & !HIGH);
            ((left & !right) | (!(left ^ right) & low)) & HIGH
        })
    }
}
