// Made from crates/zerotrie_base/src/byte_phf/remainders.rt by rust/make: edit that.
//! Buckets and places without division.

use super::{f1, mixed, turned};

/// The remainders of all bytes by a number, each computed once.
pub(in crate::made::zerotrie_base) struct Remainders {
    n: u8,
    of: [u8; 256],
}

impl Remainders {
    /// Computes the remainders by `n`. If `n` is 0, they are the bytes themselves.
    pub(in crate::made::zerotrie_base) fn by(n: u8) -> Self {
        let mut of = [0; 256];
        for byte in 0..=255u8 {
            of[byte as usize] = f1(byte, 0, n);
        }
        Remainders { n, of }
    }

    /// Like [`f1`].
    #[inline]
    pub(in crate::made::zerotrie_base) fn bucket(&self, byte: u8, p: u8) -> u8 {
        if self.n == 0 {
            byte
        } else {
            self.of[mixed(byte, p) as usize]
        }
    }

    /// Like [`super::f2`].
    #[inline]
    pub(in crate::made::zerotrie_base) fn place(&self, byte: u8, q: u8) -> u8 {
        if self.n == 0 {
            byte
        } else {
            self.of[turned(byte, q) as usize]
        }
    }
}

/// 65535 divided by each number, rounded down. The entry of 0 is 0.
const QUOTIENTS: [u16; 256] = [
    0, 65535, 32767, 21845, 16383, 13107, 10922, 9362, 8191, 7281, 6553, 5957, 5461, 5041, 4681,
    4369, 4095, 3855, 3640, 3449, 3276, 3120, 2978, 2849, 2730, 2621, 2520, 2427, 2340, 2259, 2184,
    2114, 2047, 1985, 1927, 1872, 1820, 1771, 1724, 1680, 1638, 1598, 1560, 1524, 1489, 1456, 1424,
    1394, 1365, 1337, 1310, 1285, 1260, 1236, 1213, 1191, 1170, 1149, 1129, 1110, 1092, 1074, 1057,
    1040, 1023, 1008, 992, 978, 963, 949, 936, 923, 910, 897, 885, 873, 862, 851, 840, 829, 819,
    809, 799, 789, 780, 771, 762, 753, 744, 736, 728, 720, 712, 704, 697, 689, 682, 675, 668, 661,
    655, 648, 642, 636, 630, 624, 618, 612, 606, 601, 595, 590, 585, 579, 574, 569, 564, 560, 555,
    550, 546, 541, 537, 532, 528, 524, 520, 516, 511, 508, 504, 500, 496, 492, 489, 485, 481, 478,
    474, 471, 468, 464, 461, 458, 455, 451, 448, 445, 442, 439, 436, 434, 431, 428, 425, 422, 420,
    417, 414, 412, 409, 407, 404, 402, 399, 397, 394, 392, 390, 387, 385, 383, 381, 378, 376, 374,
    372, 370, 368, 366, 364, 362, 360, 358, 356, 354, 352, 350, 348, 346, 344, 343, 341, 339, 337,
    336, 334, 332, 330, 329, 327, 326, 324, 322, 321, 319, 318, 316, 315, 313, 312, 310, 309, 307,
    306, 304, 303, 302, 300, 299, 297, 296, 295, 293, 292, 291, 289, 288, 287, 286, 284, 283, 282,
    281, 280, 278, 277, 276, 275, 274, 273, 271, 270, 269, 268, 267, 266, 265, 264, 263, 262, 261,
    260, 259, 258, 257,
];

#[inline]
fn quotient(n: u8) -> u16 {
    QUOTIENTS[n as usize]
}

/// Returns `byte % n`. The upper bits of the product are the quotient.
#[inline]
pub(in crate::made::zerotrie_base) fn remainder(byte: u8, n: u8) -> u8 {
    let whole = (byte as u32 * (quotient(n) as u32 + 1)) >> 16;
    (byte as u32 - whole * n as u32) as u8
}
