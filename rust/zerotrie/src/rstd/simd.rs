//! Lanes of bytes and of characters, as many as Rattle's own have.
use super::lanes;

pub mod prelude {
    pub use super::{u8x8, u8x16, u8x32, u8x64, u32x16};
}

macro_rules! lanes {
    ($name:ident, $mask:ident, $count:literal) => {
        #[allow(non_camel_case_types)]
        #[derive(Clone, Copy)]
        pub struct $name([u8; $count]);

        #[allow(non_camel_case_types)]
        #[derive(Clone, Copy)]
        pub struct $mask(u64);

        impl $name {
            #[inline(always)]
            pub fn from_slice(bytes: &[u8]) -> Self {
                $name(*bytes.first_chunk().expect("enough bytes"))
            }

            #[inline(always)]
            pub fn splat(byte: u8) -> Self {
                $name([byte; $count])
            }

            #[inline(always)]
            fn by_sixteens(self, other: Self, compare: impl Fn(&[u8; 16], &[u8; 16]) -> u16) -> $mask {
                let (mut bits, mut at) = (0, 0);
                while at < $count {
                    let (left, right) = (self.0[at..].first_chunk(), other.0[at..].first_chunk());
                    bits |= u64::from(compare(left.expect("sixteen"), right.expect("sixteen"))) << at;
                    at += 16;
                }
                $mask(bits)
            }

            #[inline(always)]
            pub fn simd_eq(self, other: Self) -> $mask {
                self.by_sixteens(other, lanes::eq)
            }

            #[inline(always)]
            pub fn simd_ge(self, other: Self) -> $mask {
                self.by_sixteens(other, lanes::ge)
            }

            #[inline(always)]
            pub fn simd_ne(self, other: Self) -> $mask {
                self.by_sixteens(other, |left, right| !lanes::eq(left, right))
            }

            #[inline(always)]
            pub fn simd_lt(self, other: Self) -> $mask {
                self.by_sixteens(other, |left, right| !lanes::ge(left, right))
            }
        }

        impl $mask {
            #[inline(always)]
            pub fn to_bitmask(self) -> u64 {
                self.0
            }
        }
    };
}
lanes!(u8x16, m8x16, 16);
lanes!(u8x32, m8x32, 32);
lanes!(u8x64, m8x64, 64);

/// Half of sixteen lanes.
#[allow(non_camel_case_types)]
#[derive(Clone, Copy)]
pub struct u8x8(u8x16);

impl u8x8 {
    #[inline(always)]
    pub fn from_slice(bytes: &[u8]) -> Self {
        let mut lanes = [0; 16];
        lanes[..8].copy_from_slice(&bytes[..8]);
        u8x8(u8x16(lanes))
    }

    #[inline(always)]
    pub fn splat(byte: u8) -> Self {
        u8x8(u8x16::splat(byte))
    }

    #[inline(always)]
    pub fn simd_eq(self, other: Self) -> m8x8 {
        m8x8(self.0.simd_eq(other.0))
    }

    #[inline(always)]
    pub fn simd_ge(self, other: Self) -> m8x8 {
        m8x8(self.0.simd_ge(other.0))
    }

    #[inline(always)]
    pub fn simd_lt(self, other: Self) -> m8x8 {
        m8x8(self.0.simd_lt(other.0))
    }
}

#[allow(non_camel_case_types)]
#[derive(Clone, Copy)]
pub struct m8x8(m8x16);

impl m8x8 {
    #[inline(always)]
    pub fn to_bitmask(self) -> u64 {
        self.0.to_bitmask() & 0xFF
    }
}

#[allow(non_camel_case_types)]
#[derive(Clone, Copy)]
pub struct u32x16([u32; 16]);

#[allow(non_camel_case_types)]
#[derive(Clone, Copy)]
pub struct m32x16(u64);

impl u32x16 {
    #[inline(always)]
    pub fn from_slice(words: &[u32]) -> Self {
        u32x16(*words.first_chunk().expect("enough words"))
    }

    #[inline(always)]
    pub fn splat(word: u32) -> Self {
        u32x16([word; 16])
    }

    #[inline(always)]
    pub fn simd_eq(self, other: Self) -> m32x16 {
        let mut same = [0; 16];
        for (same, (left, right)) in same.iter_mut().zip(self.0.iter().zip(&other.0)) {
            *same = u8::from(left == right);
        }
        m32x16(u64::from(lanes::eq(&same, &[1; 16])))
    }
}

impl m32x16 {
    #[inline(always)]
    pub fn to_bitmask(self) -> u64 {
        self.0
    }
}
