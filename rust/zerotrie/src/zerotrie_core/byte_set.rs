// Made from crates/zerotrie_core/src/byte_set.rt by rust/make: edit that.
//! Sets of bytes.

/// A set of bytes, as a bit for each byte.
///
/// ```
/// # use zerotrie::{rstd::examples::*, zerotrie_core::*, zerotrie_base::*};
/// let mut vowels = ByteSet::from_bytes(b"aeiou");
/// assert!(vowels.has(b'e'));
/// assert!(!vowels.has(b'f'));
/// vowels.remove(b'a');
/// assert_eq!(vowels.least(), Some(b'e'));
/// # Ok::<(), Fail>(())
/// ```
#[derive(Clone, Copy, Debug, PartialEq, Eq)]
pub struct ByteSet {
    words: [u64; 4],
}

impl ByteSet {
    /// Returns the set of no byte.
    #[inline]
    pub fn none() -> Self {
        ByteSet { words: [0; 4] }
    }

    /// Returns the set of all bytes.
    #[inline]
    pub fn all() -> Self {
        ByteSet {
            words: [u64::MAX; 4],
        }
    }

    /// Returns the set of these bytes.
    ///
    /// ```
    /// # use zerotrie::{rstd::examples::*, zerotrie_core::*, zerotrie_base::*};
    /// let digits = ByteSet::from_bytes(b"0123456789");
    /// assert!(digits.has(b'7'));
    /// assert!(!digits.has(b'a'));
    /// # Ok::<(), Fail>(())
    /// ```
    #[inline]
    pub fn from_bytes(bytes: &[u8]) -> Self {
        let mut set = ByteSet::none();
        for byte in bytes {
            set.insert(*byte);
        }
        set
    }

    /// Returns whether a byte is in the set.
    #[inline(always)]
    pub fn has(&self, byte: u8) -> bool {
        (self.words[byte as usize / 64] >> (byte % 64)) & 1 == 1
    }

    /// Adds a byte to the set.
    ///
    /// ```
    /// # use zerotrie::{rstd::examples::*, zerotrie_core::*, zerotrie_base::*};
    /// let mut set = ByteSet::none();
    /// set.insert(b'a');
    /// assert!(set.has(b'a'));
    /// # Ok::<(), Fail>(())
    /// ```
    #[inline(always)]
    pub fn insert(&mut self, byte: u8) {
        self.words[byte as usize / 64] |= 1 << (byte % 64);
    }

    /// Removes a byte from the set.
    ///
    /// ```
    /// # use zerotrie::{rstd::examples::*, zerotrie_core::*, zerotrie_base::*};
    /// let mut set = ByteSet::all();
    /// set.remove(0);
    /// assert_eq!(set.least(), Some(1));
    /// # Ok::<(), Fail>(())
    /// ```
    #[inline(always)]
    pub fn remove(&mut self, byte: u8) {
        self.words[byte as usize / 64] &= !(1 << (byte % 64));
    }

    /// Returns the set of the bytes that are in both sets.
    ///
    /// ```
    /// # use zerotrie::{rstd::examples::*, zerotrie_core::*, zerotrie_base::*};
    /// let both = ByteSet::from_bytes(b"abc").intersect(&ByteSet::from_bytes(b"bcd"));
    /// assert_eq!(both, ByteSet::from_bytes(b"bc"));
    /// # Ok::<(), Fail>(())
    /// ```
    #[inline]
    pub fn intersect(&self, other: &ByteSet) -> Self {
        let [a, b, c, d] = self.words;
        let [e, f, g, h] = other.words;
        ByteSet {
            words: [a & e, b & f, c & g, d & h],
        }
    }

    /// Returns the set of the bytes that are in one of the sets or in both.
    ///
    /// ```
    /// # use zerotrie::{rstd::examples::*, zerotrie_core::*, zerotrie_base::*};
    /// let one = ByteSet::from_bytes(b"ab").unite(&ByteSet::from_bytes(b"bc"));
    /// assert_eq!(one, ByteSet::from_bytes(b"abc"));
    /// # Ok::<(), Fail>(())
    /// ```
    #[inline]
    pub fn unite(&self, other: &ByteSet) -> Self {
        let [a, b, c, d] = self.words;
        let [e, f, g, h] = other.words;
        ByteSet {
            words: [a | e, b | f, c | g, d | h],
        }
    }

    /// Returns the least byte of the set, or `None` if it has none.
    ///
    /// ```
    /// # use zerotrie::{rstd::examples::*, zerotrie_core::*, zerotrie_base::*};
    /// assert_eq!(ByteSet::from_bytes(b"zebra").least(), Some(b'a'));
    /// assert_eq!(ByteSet::none().least(), None);
    /// # Ok::<(), Fail>(())
    /// ```
    #[inline]
    pub fn least(&self) -> Option<u8> {
        for place in 0..4 {
            let word = self.words[place];
            if word != 0 {
                return Some((64 * place + word.trailing_zeros() as usize) as u8);
            }
        }
        None
    }
}
