//! Random keys, pairs, bytes and questions.

use crate::brute::{Asked, Pair, Question};
use std::collections::BTreeMap;
use zerotrie::TrieKind;
use zerotrie::search::SearchBy;

pub struct Random(u64);

impl Random {
    pub fn new(seed: u64) -> Random {
        Random(seed.wrapping_mul(0x9E37_79B9_7F4A_7C15) | 1)
    }

    pub fn next(&mut self) -> u64 {
        self.0 ^= self.0 << 13;
        self.0 ^= self.0 >> 7;
        self.0 ^= self.0 << 17;
        self.0 >> 8
    }

    pub fn below(&mut self, limit: usize) -> usize {
        (self.next() % limit as u64) as usize
    }

    pub fn pick<T: Copy>(&mut self, of: &[T]) -> T {
        of[self.below(of.len())]
    }

    /// A byte that a trie is likely to have.
    pub fn byte(&mut self) -> u8 {
        match self.below(8) {
            0 => 0x80 + self.below(32) as u8,
            1 => 0xC0 + self.below(8) as u8,
            2 => 0xE0 + self.below(4) as u8,
            3 => 0xA0 + self.below(6) as u8,
            4 => self.below(16) as u8,
            5 => self.next() as u8,
            6 => self.pick(b"abAB"),
            _ => self.pick(b"abcdefXYZ/"),
        }
    }

    pub fn key(&mut self, kind: TrieKind) -> Vec<u8> {
        let (of, mask): (&[u8], u8) = match kind {
            TrieKind::Simple => (b"abcAB", 0x3F),
            TrieKind::Ignore => (b"abcdEF", 0x3F),
            TrieKind::Hash | TrieKind::Ext => (b"ab\xC3\xA5\xB8", 0xFF),
        };
        let wide = self.below(4) == 0;
        (0..self.below(6)).map(|_| if wide { self.next() as u8 & mask } else { self.pick(of) }).collect()
    }

    /// One of these texts, or a part of one.
    pub fn text(&mut self, of: &[Vec<u8>]) -> Vec<u8> {
        let mut text = of[self.below(of.len())].clone();
        if self.below(3) == 0 {
            text.truncate(self.below(text.len() + 1));
        }
        text
    }

    pub fn value(&mut self) -> usize {
        self.pick(&[0, 5, 15, 16, 31, 32, 2063, 2064, 4127, 4128, 1 << 40, usize::MAX - 1, usize::MAX])
    }

    pub fn pairs(&mut self, mut key: impl FnMut(&mut Random) -> Vec<u8>) -> Vec<Pair> {
        let count = self.pick(&[0, 1, 2, 3, 5, 8, 20, 60]);
        let pairs: BTreeMap<Vec<u8>, usize> = (0..count).map(|_| (key(self), self.value())).collect();
        pairs.into_iter().collect()
    }

    /// A pattern that a text is likely to match, or any pattern.
    fn pattern(&mut self, text: &[u8]) -> Vec<u8> {
        if self.below(4) == 0 {
            return (0..self.below(8))
                .map(|_| if self.below(4) == 0 { self.byte() } else { self.pick(b"*?[]!^-{,}\\ab") })
                .collect();
        }
        let mut parts: Vec<Vec<u8>> = text
            .iter()
            .map(|byte| match self.below(7) {
                0 => b"?".to_vec(),
                1 => {
                    let (from, to) = (byte.saturating_sub(self.below(3) as u8), byte.saturating_add(self.below(3) as u8));
                    [b"[".as_slice(), self.pick(&[b"", b"!", b"^"]), &[b'\\', from, b'-', b'\\', to, b']']].concat()
                }
                2 => vec![b'{', b'\\', self.byte(), b',', b'\\', *byte, b'}'],
                _ if b"*?[{}\\".contains(byte) => vec![b'\\', *byte],
                _ => vec![*byte],
            })
            .collect();
        for _ in 0..self.below(3) {
            let part = if self.below(3) == 0 { vec![b'{', b'\\', self.byte(), b',', b'}'] } else { b"*".to_vec() };
            parts.insert(self.below(parts.len() + 1), part);
        }
        parts.concat()
    }

    pub fn question(&mut self, kind: TrieKind, texts: &[Vec<u8>]) -> Question {
        let (text, edits) = (self.text(texts), self.pick(&[0, 1, 1, 2, 2, 3, 8, 254, 255]));
        let by = match self.below(8) {
            0 => SearchBy::Prefix,
            1 => SearchBy::Subsequence,
            2 => SearchBy::Glob,
            3 => SearchBy::GlobChars,
            4 => SearchBy::Fuzzy(edits),
            5 => SearchBy::FuzzyChars(edits),
            6 => SearchBy::Swaps(edits),
            _ => SearchBy::SwapsChars(edits),
        };
        let word = if matches!(by, SearchBy::Glob | SearchBy::GlobChars) { self.pattern(&text) } else { text };
        Question { by, word, as_kind: self.pick(&[kind, TrieKind::Hash, TrieKind::Ignore]) }
    }

    pub fn asked(&mut self, kind: TrieKind, texts: &[Vec<u8>]) -> Asked {
        let one = self.question(kind, texts);
        match self.below(8) {
            0 => Asked::Begins(one),
            1 => Asked::SecondNotFirst(one, self.question(kind, texts)),
            2 => Asked::Either(one, self.question(kind, texts)),
            3 => Asked::KeysAnd(one),
            4 => Asked::NotKeys,
            _ => Asked::One(one),
        }
    }

    /// Changes some bytes.
    pub fn damage(&mut self, bytes: &mut Vec<u8>, times: usize) {
        for _ in 0..times {
            if bytes.is_empty() {
                return;
            }
            let place = self.below(bytes.len());
            match self.below(6) {
                0 => bytes[place] ^= 1 << self.below(8),
                1 => bytes[place] = self.byte(),
                2 => bytes.truncate(place),
                3 => bytes.insert(place, self.byte()),
                4 => bytes[place] = bytes[self.below(bytes.len())],
                _ => drop(bytes.remove(place)),
            }
        }
    }
}

/// Returns branches, one inside another, around some bytes. The edges are a, a and b, and the targets of the first and the last are all
/// bytes behind the offsets, so few bytes have many ways.
pub fn nested(count: usize, innermost: &[u8]) -> Vec<u8> {
    (0..count).fold(innermost.to_vec(), |bytes, number| match number < 38 {
        true => [&[0xC3, b'a', b'a', b'b', bytes.len() as u8, 0], &bytes[..]].concat(),
        false => [&[0xE1, 0x63, b'a', b'a', b'b', (bytes.len() >> 8) as u8, 0, bytes.len() as u8, 0], &bytes[..]].concat(),
    })
}

pub const INNERMOST: [&[u8]; 3] = [&[0xFF; 20], b"\x81", b"x\x81"];
