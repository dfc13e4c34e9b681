//! Builds of a trie in a constant.
//!
//! They are written by hand: the proved builder has traits, iterators and `?`, which no stable
//! `const fn` may. A test compares the two.

use crate::ZeroTrieSimpleAscii;
use alloc::vec::Vec;

/// The pairs of a build.
#[derive(Clone, Copy)]
enum Pairs<'a> {
    Bytes(&'a [(&'a [u8], usize)]),
    Strings(&'a [(&'a str, usize)]),
}

impl<'a> Pairs<'a> {
    const fn len(self) -> usize {
        match self {
            Pairs::Bytes(pairs) => pairs.len(),
            Pairs::Strings(pairs) => pairs.len(),
        }
    }

    const fn key(self, index: usize) -> &'a [u8] {
        match self {
            Pairs::Bytes(pairs) => pairs[index].0,
            Pairs::Strings(pairs) => pairs[index].0.as_bytes(),
        }
    }

    const fn value(self, index: usize) -> usize {
        match self {
            Pairs::Bytes(pairs) => pairs[index].1,
            Pairs::Strings(pairs) => pairs[index].1,
        }
    }
}

/// Returns how many bytes two keys have in common, of which the first must be below the second.
const fn shared_len(a: &[u8], b: &[u8]) -> usize {
    let mut len = 0;
    while len < a.len() && len < b.len() && a[len] == b[len] {
        len += 1;
    }
    assert!(len < b.len() && (len == a.len() || a[len] < b[len]), "the keys do not ascend");
    len
}

/// A target of a branch that is still open: its edge, the depth of that, and its length.
#[derive(Clone, Copy)]
struct Target {
    edge: u8,
    depth: usize,
    len: usize,
}

/// How many targets of open branches there may be at once.
const TARGETS: usize = 1024;

/// An array that is filled from its end, from the last pair to the first. It counts all bytes of the trie, also those that have no room.
///
/// No call calls itself: how deep a constant may be does not depend on the compiler's limit for nested calls.
struct Filled<'a, const N: usize> {
    pairs: Pairs<'a>,
    bytes: [u8; N],
    len: usize,
    /// The length before the text that is being put.
    start: usize,
    /// The targets of open branches, the last one of each branch first.
    targets: [Target; TARGETS],
    count: usize,
}

impl<'a, const N: usize> Filled<'a, N> {
    /// Returns the array with the trie of the pairs at its end.
    const fn of(pairs: Pairs<'a>) -> Self {
        let targets = [Target { edge: 0, depth: 0, len: 0 }; TARGETS];
        let mut filled = Filled { pairs, bytes: [0; N], len: 0, start: 0, targets, count: 0 };
        let mut index = pairs.len();
        while index > 0 {
            index -= 1;
            filled.put_pair(index);
        }
        filled
    }

    const fn put(&mut self, byte: u8) {
        match self.len.checked_add(1) {
            Some(len) => self.len = len,
            None => panic!("Reached maximum capacity of trie"),
        }
        if self.len <= N {
            self.bytes[N - self.len] = byte;
        }
    }

    const fn put_ascii(&mut self, byte: u8) {
        assert!(byte.is_ascii(), "Non-ASCII cannot be added to an ASCII-only trie");
        self.put(byte);
    }

    /// Puts a number whose first byte has this mark and so many bits of the number.
    const fn put_number(&mut self, mark: u8, bits: u32, number: usize) {
        let (mut left, mut more) = (number, 0);
        while left >= 1 << bits {
            left -= 1 << bits;
            self.put(left as u8 & 0x7F | more);
            more = 0x80;
            left >>= 7;
        }
        let more = if more == 0 { 0 } else { 1 << bits };
        self.put(mark | more | left as u8);
    }

    /// Puts the value of a pair and as much of its key as the one before does not share, so that this one may follow.
    const fn put_pair(&mut self, index: usize) {
        let key = self.pairs.key(index);
        self.put_number(0x80, 4, self.pairs.value(index));
        if index == 0 {
            return self.put_key(key, 0);
        }
        let before = self.pairs.key(index - 1);
        let shared = shared_len(before, key);
        if shared == before.len() {
            return self.put_key(key, shared);
        }
        self.put_key(key, shared + 1);
        self.set_aside(key[shared], shared);
    }

    /// Puts a key's bytes from a depth on, and the branches among them.
    const fn put_key(&mut self, key: &[u8], depth: usize) {
        let mut at = key.len();
        while at > depth {
            at -= 1;
            if self.count > 0 && self.targets[self.count - 1].depth == at {
                self.set_aside(key[at], at);
                self.put_branch(at);
            } else {
                self.put_ascii(key[at]);
            }
        }
    }

    /// Sets the text that was put last aside, as a target of a branch.
    const fn set_aside(&mut self, edge: u8, depth: usize) {
        assert!(self.count < TARGETS, "Reached maximum capacity of trie");
        self.targets[self.count] = Target { edge, depth, len: self.len - self.start };
        self.count += 1;
        self.start = self.len;
    }

    /// Puts the branch to the targets that were set aside at this depth.
    const fn put_branch(&mut self, depth: usize) {
        let end = self.count;
        let mut total = 0;
        while self.count > 0 && self.targets[self.count - 1].depth == depth {
            self.count -= 1;
            total += self.targets[self.count].len;
        }
        self.start = self.len - total;
        let width = (total.ilog2() / 8) as usize;
        assert!(width < 4, "Reached maximum capacity of trie");
        let mut plane = 0;
        while plane <= width {
            self.put_offsets(end, total, 8 * plane);
            plane += 1;
        }
        let mut i = self.count;
        while i < end {
            self.put_ascii(self.targets[i].edge);
            i += 1;
        }
        self.put_number(0xC0, 5, (width << 8) + ((end - self.count) & 0xFF));
    }

    /// Puts one byte of each offset, the bits from `shift` on, of a branch to the targets up to `end`, which have `total` bytes.
    const fn put_offsets(&mut self, end: usize, total: usize, shift: usize) {
        let mut offset = total;
        let mut i = self.count;
        while i + 1 < end {
            offset -= self.targets[i].len;
            self.put((offset >> shift) as u8);
            i += 1;
        }
    }
}

const fn built<const N: usize>(pairs: Pairs<'_>) -> [u8; N] {
    let filled = Filled::<N>::of(pairs);
    if filled.len != N {
        wrong_length(filled.len);
    }
    filled.bytes
}

const fn len_of(pairs: Pairs<'_>) -> usize {
    Filled::<0>::of(pairs).len
}

/// Panics with the length that the array should have, which no `const fn` can format.
const fn wrong_length(len: usize) -> ! {
    const SAID: &[u8] = b"the array must have the trie's length: ";
    let mut text = [0; SAID.len() + 20];
    let mut end = 0;
    while end < SAID.len() {
        text[end] = SAID[end];
        end += 1;
    }
    let mut unit = 1;
    while len / unit >= 10 {
        unit *= 10;
    }
    while unit > 0 {
        text[end] = b'0' + (len / unit % 10) as u8;
        unit /= 10;
        end += 1;
    }
    match core::str::from_utf8(text.split_at(end).0) {
        Ok(text) => panic!("{}", text),
        Err(_) => panic!("the array must have the trie's length"),
    }
}

impl<const N: usize> ZeroTrieSimpleAscii<[u8; N]> {
    /// Builds a trie in a constant, from pairs whose keys ascend by their bytes. `N` is the length
    /// of the trie, as [`len_of_sorted_u8_tuples`](ZeroTrieSimpleAscii::len_of_sorted_u8_tuples)
    /// returns it, or the message of this function.
    ///
    /// ```
    /// use zerotrie::ZeroTrieSimpleAscii;
    ///
    /// static TRIE: ZeroTrieSimpleAscii<[u8; 7]> =
    ///     ZeroTrieSimpleAscii::from_sorted_u8_tuples(&[(b"abc", 2), (b"abcxy", 1)]);
    /// assert_eq!(TRIE.get("abcxy"), Some(1));
    /// ```
    ///
    /// This function and the next ones are not made from the proved sources: they are written by
    /// hand, and tests compare their bytes with those of the other builders.
    ///
    /// # Panics
    ///
    /// If the keys do not strictly ascend, a key is not ASCII, or the trie has another length than
    /// `N`: the message says which. In a constant that is an error of the compiler.
    pub const fn from_sorted_u8_tuples(tuples: &[(&[u8], usize)]) -> Self {
        Self::from_store(built(Pairs::Bytes(tuples)))
    }

    /// Builds a trie in a constant, as
    /// [`from_sorted_u8_tuples`](ZeroTrieSimpleAscii::from_sorted_u8_tuples) does, from strings.
    ///
    /// ```
    /// use zerotrie::ZeroTrieSimpleAscii;
    ///
    /// const WORDS: &[(&str, usize)] = &[("abc", 2), ("abcxy", 1)];
    /// const LEN: usize = ZeroTrieSimpleAscii::len_of_sorted_str_tuples(WORDS);
    ///
    /// static TRIE: ZeroTrieSimpleAscii<[u8; LEN]> =
    ///     ZeroTrieSimpleAscii::from_sorted_str_tuples(WORDS);
    /// assert_eq!(TRIE.get("abc"), Some(2));
    /// ```
    ///
    /// ```compile_fail
    /// use zerotrie::ZeroTrieSimpleAscii;
    ///
    /// // error: the array must have the trie's length: 7
    /// static TRIE: ZeroTrieSimpleAscii<[u8; 8]> =
    ///     ZeroTrieSimpleAscii::from_sorted_str_tuples(&[("abc", 2), ("abcxy", 1)]);
    /// ```
    ///
    /// # Panics
    ///
    /// As [`from_sorted_u8_tuples`](ZeroTrieSimpleAscii::from_sorted_u8_tuples).
    pub const fn from_sorted_str_tuples(tuples: &[(&str, usize)]) -> Self {
        Self::from_store(built(Pairs::Strings(tuples)))
    }
}

impl ZeroTrieSimpleAscii<Vec<u8>> {
    /// Returns the length of the array that
    /// [`from_sorted_u8_tuples`](ZeroTrieSimpleAscii::from_sorted_u8_tuples) fills, in a constant.
    ///
    /// # Panics
    ///
    /// As [`from_sorted_u8_tuples`](ZeroTrieSimpleAscii::from_sorted_u8_tuples), but for the length.
    pub const fn len_of_sorted_u8_tuples(tuples: &[(&[u8], usize)]) -> usize {
        len_of(Pairs::Bytes(tuples))
    }

    /// Returns the length of the array that
    /// [`from_sorted_str_tuples`](ZeroTrieSimpleAscii::from_sorted_str_tuples) fills, in a constant.
    ///
    /// # Panics
    ///
    /// As [`from_sorted_u8_tuples`](ZeroTrieSimpleAscii::from_sorted_u8_tuples), but for the length.
    pub const fn len_of_sorted_str_tuples(tuples: &[(&str, usize)]) -> usize {
        len_of(Pairs::Strings(tuples))
    }
}

#[cfg(test)]
mod tests {
    extern crate std;

    use super::*;

    /// Pairs whose keys ascend, of letters that a number gives.
    fn pairs(seed: u64, letters: &[u8], count: usize) -> Vec<(Vec<u8>, usize)> {
        let mut state = seed;
        let mut next = |below: usize| {
            state = state.wrapping_mul(6364136223846793005).wrapping_add(1442695040888963407);
            ((state >> 33) % below as u64) as usize
        };
        let mut pairs: Vec<(Vec<u8>, usize)> =
            (0..count).map(|_| ((0..next(12)).map(|_| letters[next(letters.len())]).collect(), next(1 << 18))).collect();
        pairs.sort();
        pairs.dedup_by(|a, b| a.0 == b.0);
        pairs
    }

    #[test]
    fn bytes_are_those_of_the_other_builder() {
        let every: Vec<u8> = (0..128).collect();
        for seed in 0..600 {
            let letters = [b"ab".as_slice(), b"abcdefgh", &every][seed as usize % 3];
            let pairs = pairs(seed, letters, [3, 20, 300][seed as usize / 3 % 3]);
            let pairs: Vec<(&[u8], usize)> = pairs.iter().map(|(key, value)| (key.as_slice(), *value)).collect();
            let filled = Filled::<16384>::of(Pairs::Bytes(&pairs));
            let built = ZeroTrieSimpleAscii::try_from_sorted_slice(&pairs).unwrap();
            assert_eq!(&filled.bytes[16384 - filled.len..], built.as_bytes());
            assert_eq!(len_of(Pairs::Bytes(&pairs)), built.byte_len());
        }
    }

    const LETTERS: [u8; 700] = {
        let mut letters = [b'a'; 700];
        letters[699] = b'b';
        letters
    };

    /// Keys each of which begins the next.
    const NESTED: [(&[u8], usize); 600] = {
        let mut pairs = [(LETTERS.as_slice(), 0); 600];
        let mut i = 0;
        while i < 600 {
            pairs[i] = (LETTERS.split_at(i).0, i);
            i += 1;
        }
        pairs
    };

    /// Keys each of which leaves the one before at its last letter.
    const BRANCHES: [(&[u8], usize); 600] = {
        let mut pairs = [(LETTERS.as_slice(), 0); 600];
        let mut i = 0;
        while i < 600 {
            pairs[i] = (LETTERS.split_at(i).1, i);
            i += 1;
        }
        pairs
    };

    /// A constant is as deep as it likes: the compiler has no limit for loops.
    #[test]
    fn constants_are_deep() {
        static DEEP: ZeroTrieSimpleAscii<[u8; len_of(Pairs::Bytes(&NESTED))]> =
            ZeroTrieSimpleAscii::from_sorted_u8_tuples(&NESTED);
        static WIDE: ZeroTrieSimpleAscii<[u8; len_of(Pairs::Bytes(&BRANCHES))]> =
            ZeroTrieSimpleAscii::from_sorted_u8_tuples(&BRANCHES);
        assert_eq!(DEEP.as_bytes(), ZeroTrieSimpleAscii::try_from_sorted_slice(&NESTED).unwrap().as_bytes());
        assert_eq!(WIDE.as_bytes(), ZeroTrieSimpleAscii::try_from_sorted_slice(&BRANCHES).unwrap().as_bytes());
        let text = [&[b'a'; 1100], b"b".as_slice()].concat();
        let suffixes: Vec<(&[u8], usize)> = (0..TARGETS + 1).map(|i| (&text[i..], i)).collect();
        len_of(Pairs::Bytes(&suffixes[1..]));
        let panic = std::panic::catch_unwind(|| len_of(Pairs::Bytes(&suffixes))).unwrap_err();
        assert_eq!(panic.downcast_ref(), Some(&"Reached maximum capacity of trie"));
    }

    const MOST: &str = if usize::BITS == 64 { "18446744073709551615" } else { "4294967295" };

    #[test]
    fn a_wrong_length_says_the_right_one() {
        for (len, said) in [(0, "0"), (7, "7"), (10, "10"), (16384, "16384"), (usize::MAX, MOST)] {
            let panic = std::panic::catch_unwind(|| wrong_length(len)).unwrap_err();
            let text = panic.downcast_ref::<alloc::string::String>().unwrap();
            assert_eq!(text, &alloc::format!("the array must have the trie's length: {said}"));
        }
    }
}
