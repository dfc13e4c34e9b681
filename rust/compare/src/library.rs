//! What is asked of a library, in the words that both have.

use std::ops::Bound;
use zerotrie::sets::{Rule, Selection};

/// The number of a status of `zerotrie.h`.
pub type Status = u32;
pub type Pair<'a> = (&'a [u8], usize);
pub type Found = Vec<(Vec<u8>, usize)>;
/// An entry of a dense table: a prefix, a suffix and a value.
pub type Entry<'a> = (&'a str, &'a str, usize);

pub const DUPLICATE_KEY: Status = 6;

/// The kinds of tries, by their numbers.
pub const KINDS: [u8; 4] = [0, 3, 7, 8];

/// A search, by its number in `zerotrie.h`.
#[derive(Clone, Copy, Debug)]
pub enum Search<'a> {
    Range(Bound<&'a [u8]>, Bound<&'a [u8]>),
    Glob(&'a [u8]),
    Subsequence(&'a [u8]),
    Edits(&'a [u8], u8),
    CharEdits(&'a [u8], u8),
}

/// A call of a cursor.
#[derive(Clone, Copy, Debug)]
pub enum Move {
    Step(u8),
    Probe(usize),
    Take,
}

/// What a call of a cursor returns, to be printed.
#[allow(dead_code)]
#[derive(Debug)]
pub enum Moved {
    Edge(Option<u8>),
    Sibling(Option<(u8, u16)>),
    Value(Option<usize>),
}

pub trait Library {
    fn build(&self, kind: u8, pairs: &[Pair]) -> Result<Vec<u8>, Status>;
    fn build_sorted(&self, kind: u8, pairs: &[Pair]) -> Result<Vec<u8>, Status>;
    fn encoded_len(&self, kind: u8, pairs: &[Pair]) -> Result<usize, Status>;
    fn why_refused(&self, kind: u8, pairs: &[Pair]) -> Option<(Status, usize, usize)>;
    fn get(&self, kind: u8, bytes: &[u8], key: &[u8]) -> Option<usize>;
    fn get_many(&self, kind: u8, bytes: &[u8], keys: &[Vec<u8>], missing: usize) -> Vec<usize>;
    fn longest_prefix(&self, kind: u8, bytes: &[u8], text: &[u8]) -> Option<(usize, usize)>;
    fn longest_prefix_at(&self, kind: u8, bytes: &[u8], text: &[u8], delimiters: &[u8]) -> Option<(usize, usize)>;
    fn common_prefixes(&self, kind: u8, bytes: &[u8], text: &[u8]) -> Vec<(usize, usize)>;
    fn is_well_formed(&self, kind: u8, bytes: &[u8]) -> bool;
    fn first_fault(&self, kind: u8, bytes: &[u8]) -> Option<(u32, usize)>;
    fn list(&self, kind: u8, bytes: &[u8], prefix: &[u8]) -> Found;
    fn sorted(&self, kind: u8, bytes: &[u8], from: Bound<&[u8]>, to: Bound<&[u8]>) -> Found;
    fn last_within(&self, kind: u8, bytes: &[u8], from: Bound<&[u8]>, to: Bound<&[u8]>) -> Option<(Vec<u8>, usize)>;
    fn first_key_of(&self, kind: u8, bytes: &[u8], value: usize) -> Option<Vec<u8>>;
    /// The trie that a set operation makes of tries, each with its kind.
    fn combine(&self, selection: Selection, rule: Rule, tries: &[(u8, &[u8])], kind: u8) -> Result<Vec<u8>, Status>;
    fn search(&self, kind: u8, bytes: &[u8], prefix: &[u8], search: Search, beginnings: bool) -> Result<Found, Status>;
    /// The moves of a cursor that is after a prefix.
    fn walk(&self, kind: u8, bytes: &[u8], prefix: &[u8], moves: &[Move]) -> Vec<Moved>;
    /// The kind for pairs whose keys are distinct.
    fn auto_kind(&self, pairs: &[Pair]) -> u8;
    fn tagged(&self, kind: u8, bytes: &[u8]) -> Vec<u8>;
    fn tagged_kind(&self, tagged: &[u8]) -> Result<u8, Status>;
    fn seal(&self, kind: u8, bytes: &[u8]) -> Vec<u8>;
    fn open(&self, file: &[u8]) -> Result<(u8, Vec<u8>), Status>;
    fn dense_build(&self, entries: &[Entry], delimiter: u8) -> Result<Vec<u8>, Status>;
    fn dense_get(&self, record: &[u8], prefix: &[u8], suffix: &[u8]) -> Result<usize, Status>;
    fn index_build(&self, seed: u64, pairs: &[Pair]) -> Result<Vec<u8>, Status>;
    fn index_get(&self, bytes: &[u8], key: &[u8]) -> Option<usize>;
    fn index_get_many(&self, bytes: &[u8], keys: &[Vec<u8>], missing: usize) -> Vec<usize>;
    fn index_is_valid(&self, bytes: &[u8]) -> bool;
    /// The file of an index, in blocks.
    fn index_seal(&self, bytes: &[u8]) -> Vec<u8>;
    fn index_open(&self, file: &[u8]) -> Result<Vec<u8>, Status>;
}
