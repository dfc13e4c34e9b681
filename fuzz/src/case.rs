//! Bytes of a trie, or bytes that may be none, and what they list.

use crate::brute::Pair;
use std::fmt::{Debug, Display};
use zerotrie::{TrieKind, ZeroTrie};
use zerotrie::{ZeroAsciiIgnoreCaseTrie, ZeroTrieExtendedCapacity, ZeroTriePerfectHash, ZeroTrieSimpleAscii};

pub const KINDS: [TrieKind; 4] = [TrieKind::Simple, TrieKind::Ignore, TrieKind::Hash, TrieKind::Ext];

/// Asks the trie of a kind over some bytes.
#[macro_export]
macro_rules! ask {
    ($case:expr, $trie:ident => $answer:expr) => {{
        let bytes = &$case.bytes[..];
        match $case.kind {
            zerotrie::TrieKind::Simple => {
                let $trie = zerotrie::ZeroTrieSimpleAscii::from_bytes(bytes);
                $answer
            }
            zerotrie::TrieKind::Ignore => {
                let $trie = zerotrie::ZeroAsciiIgnoreCaseTrie::from_bytes(bytes);
                $answer
            }
            zerotrie::TrieKind::Hash => {
                let $trie = zerotrie::ZeroTriePerfectHash::from_bytes(bytes);
                $answer
            }
            zerotrie::TrieKind::Ext => {
                let $trie = zerotrie::ZeroTrieExtendedCapacity::from_bytes(bytes);
                $answer
            }
        }
    }};
}

pub struct Case {
    /// Where the bytes are from.
    pub name: String,
    pub kind: TrieKind,
    pub bytes: Vec<u8>,
    /// What the trie lists, in its order.
    pub pairs: Vec<Pair>,
    /// The same in the order of bytes.
    pub sorted: Vec<Pair>,
    pub is_trie: bool,
}

impl Case {
    pub fn new(name: String, kind: TrieKind, bytes: Vec<u8>) -> Case {
        let mut case = Case { name, kind, bytes, pairs: Vec::new(), sorted: Vec::new(), is_trie: false };
        case.pairs = ask!(case, trie => case.listed("the listing", 1, trie.stream()));
        case.sorted = case.pairs.clone();
        case.sorted.sort();
        case.is_trie = ask!(case, trie => trie.is_well_formed());
        case
    }

    /// Builds the trie of pairs in the order of bytes, in both ways.
    pub fn built(name: String, kind: TrieKind, pairs: &[Pair]) -> Option<Case> {
        let bytes = built(kind, pairs)?;
        let case = Case::new(name, kind, bytes);
        assert!(case.is_trie, "{}: the bytes of a build are no trie", case.name);
        case.same("the build", &case.sorted[..], pairs);
        Some(case)
    }

    /// Builds the tries of the same pairs in the other kinds that take them.
    pub fn twins(&self) -> Vec<Case> {
        let others = KINDS.into_iter().filter(|kind| self.is_trie && *kind != self.kind);
        let name = format!("{}, of {:?}", self.name, self.kind);
        others.filter_map(|kind| Case::built(name.clone(), kind, &self.sorted)).collect()
    }

    /// Returns what a listing has, of which each byte may give this many pairs. Once it ended, it has none.
    pub fn listed<T>(&self, what: &str, most: usize, mut listing: impl Iterator<Item = T>) -> Vec<T> {
        let most = most * self.bytes.len();
        let found: Vec<T> = listing.by_ref().take(most + 1).collect();
        assert!(found.len() <= most, "{}, {:?}: {what} has more than {most} pairs on {:02x?}", self.name, self.kind, self.bytes);
        assert!(listing.next().is_none(), "{}, {:?}: {what} goes on after its end on {:02x?}", self.name, self.kind, self.bytes);
        found
    }

    /// Ends the program if the library has found something else than is wanted.
    pub fn same<T: PartialEq + Debug + ?Sized>(&self, what: impl Display, found: &T, wanted: &T) {
        if found != wanted {
            let shown = |it: &T| format!("{it:?}").chars().take(600).collect::<String>();
            let bytes = if self.bytes.len() < 200 { format!("\non {:02x?}", self.bytes) } else { String::new() };
            panic!("{}, {:?}: {what}\nfound  {}\nwanted {}{bytes}", self.name, self.kind, shown(found), shown(wanted));
        }
    }

    /// Returns whether two keys are the same to the kind.
    pub fn is_same(&self, one: &[u8], other: &[u8]) -> bool {
        if self.kind == TrieKind::Ignore { one.eq_ignore_ascii_case(other) } else { one == other }
    }

    fn begins(&self, key: &[u8], prefix: &[u8]) -> bool {
        key.get(..prefix.len()).is_some_and(|front| self.is_same(front, prefix))
    }

    /// Returns those of some pairs whose keys begin with a prefix.
    pub fn below(&self, pairs: &[Pair], prefix: &[u8]) -> Vec<Pair> {
        pairs.iter().filter(|(key, _)| self.begins(key, prefix)).cloned().collect()
    }

    /// Returns the bytes that follow a text in keys, in the order of the trie, each with their number.
    pub fn edges(&self, text: &[u8]) -> Vec<(u8, usize)> {
        let mut edges: Vec<u8> = self
            .pairs
            .iter()
            .filter(|(key, _)| self.begins(key, text))
            .filter_map(|(key, _)| key.get(text.len()).copied())
            .collect();
        edges.dedup();
        edges.iter().map(|edge| (*edge, edges.len())).collect()
    }

    /// Returns the value of a key, by the pairs.
    pub fn value(&self, key: &[u8]) -> Option<usize> {
        self.pairs.iter().find(|(held, _)| self.is_same(held, key)).map(|(_, value)| *value)
    }
}

fn built(kind: TrieKind, pairs: &[Pair]) -> Option<Vec<u8>> {
    macro_rules! of {
        ($trie:ident) => {{
            let bytes = $trie::try_from_sorted_slice(pairs).ok()?.into_store();
            let shuffled = pairs.iter().rev().map(|(key, value)| (key, *value));
            assert!($trie::try_from_iter(shuffled).is_ok_and(|it| it.into_store() == bytes), "two builds of {pairs:?} differ");
            let chosen = ZeroTrie::try_from_sorted_slice(pairs).ok()?;
            assert!(chosen.kind() != kind || chosen.as_bytes() == bytes, "a build that chooses this kind differs: {pairs:?}");
            Some(bytes)
        }};
    }
    match kind {
        TrieKind::Simple => of!(ZeroTrieSimpleAscii),
        TrieKind::Ignore => of!(ZeroAsciiIgnoreCaseTrie),
        TrieKind::Hash => of!(ZeroTriePerfectHash),
        TrieKind::Ext => of!(ZeroTrieExtendedCapacity),
    }
}
