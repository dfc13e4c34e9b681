//! Pairs as the calls take them, and the numbers that tell how a call ends.
#![allow(dead_code)]

use crate::functions::{KeyAndValue, all};

/// Out of memory, by the error that the call has for it.
pub const REFUSED: usize = usize::MAX;
/// Another error.
pub const OTHER: usize = usize::MAX - 1;
/// Out of memory while the arguments were made or the answer written down.
pub const UNREADY: usize = usize::MAX - 2;

/// The kinds, `ZeroTrie`, arrays, the plain encoder and an index.
pub const NAMES: [&str; 8] = ["simple", "ignore", "hash", "ext", "auto", "array", "plain", "index"];

/// Pairs: bytes in which all keys lie, where each begins and ends, and the values.
#[derive(Default)]
pub struct Flat {
    pub keys: Vec<u8>,
    pub bounds: Vec<usize>,
    pub values: Vec<usize>,
    /// The pairs as C has them.
    pub lent: Vec<KeyAndValue>,
}

impl Flat {
    pub fn new(keys: Vec<u8>, bounds: Vec<usize>, values: Vec<usize>) -> Flat {
        let keys_of = bounds.chunks_exact(2).map(|bound| all(&keys[bound[0]..bound[1]]));
        let lent = keys_of.zip(&values).map(|(key, value)| KeyAndValue(key, *value)).collect();
        Flat { keys, bounds, values, lent }
    }

    /// Each key after the one before it.
    pub fn of<'a>(pairs: impl Iterator<Item = (&'a [u8], usize)>) -> Flat {
        let (mut keys, mut bounds, mut values) = (Vec::new(), Vec::new(), Vec::new());
        for (key, value) in pairs {
            bounds.push(keys.len());
            keys.extend_from_slice(key);
            bounds.push(keys.len());
            values.push(value);
        }
        Flat::new(keys, bounds, values)
    }

    pub fn key(&self, number: usize) -> &[u8] {
        &self.keys[self.bounds[2 * number]..self.bounds[2 * number + 1]]
    }

    /// Where each key ends.
    pub fn ends(&self) -> Vec<usize> {
        self.bounds.iter().skip(1).step_by(2).copied().collect()
    }
}
