//! What programs take in place of a trie: std's maps, and those of other crates.

use crate::sets::Set;
use crate::table::{Contestants, all, turned};
use std::collections::{BTreeMap, HashMap};
use std::io::Write;

/// The column of fst, with the version that Debian has.
pub const FST: &str = "fst 0.3";

/// The maps of a set, which own their keys, as those of a program do.
pub struct Peers {
    ordered: BTreeMap<Vec<u8>, usize>,
    hashed: HashMap<Vec<u8>, usize>,
    fx: fxhash::FxHashMap<Vec<u8>, usize>,
    ahash: ahash::AHashMap<Vec<u8>, usize>,
    phf: phf::Map<&'static [u8], usize>,
    fst: fst::Map,
}

pub fn owned<M: FromIterator<(Vec<u8>, usize)>>(set: &Set) -> M {
    set.pairs().map(|(key, value)| (key.to_vec(), value)).collect()
}

/// The map that the macro of phf would write into a program. It is never given back, as it would stand in the program's file.
pub fn phf_of(set: &Set) -> phf::Map<&'static [u8], usize> {
    let keys: Vec<&'static [u8]> = set.keys.iter().map(|key| &*key.clone().leak()).collect();
    let state = phf_generator::generate_hash(&keys);
    let entries: Vec<(&'static [u8], usize)> = state.map.iter().map(|place| (keys[*place], set.values[*place])).collect();
    phf::Map { key: state.key, disps: state.disps.leak(), entries: entries.leak() }
}

/// Builds the map of a set as it is written.
pub fn fst_into<W: Write>(out: W, set: &Set) -> W {
    let mut builder = fst::MapBuilder::new(out).unwrap();
    for (key, value) in set.pairs() {
        builder.insert(key, value as u64).unwrap();
    }
    builder.into_inner().unwrap()
}

/// How many bytes the table takes that the macro writes.
pub fn phf_bytes(map: &phf::Map<&'static [u8], usize>) -> usize {
    let keys: usize = map.keys().map(|key| key.len()).sum();
    keys + size_of_val(&*map.entries) + size_of_val(&*map.disps)
}

pub fn fst_bytes(set: &Set) -> Vec<u8> {
    fst_into(Vec::new(), set)
}

pub fn fst_of(set: &Set) -> fst::Map {
    fst::Map::from_bytes(fst_bytes(set)).unwrap()
}

fn fst_listed(map: &fst::Map) -> usize {
    use fst::Streamer;
    let mut stream = map.stream();
    let mut sum = 0usize;
    while let Some((key, value)) = stream.next() {
        sum = sum.wrapping_add(key.len()).wrapping_add(value as usize);
    }
    sum
}

impl Peers {
    pub fn of(set: &Set) -> Peers {
        Peers { ordered: owned(set), hashed: owned(set), fx: owned(set), ahash: owned(set), phf: phf_of(set), fst: fst_of(set) }
    }

    /// Look-ups of keys, each this many times.
    pub fn look_ups<'a>(&'a self, turns: usize, keys: &'a [&'a [u8]]) -> Contestants<'a> {
        vec![
            ("BTreeMap", all(turns, keys, |key| self.ordered.get(key).copied())),
            ("HashMap", all(turns, keys, |key| self.hashed.get(key).copied())),
            ("ahash", all(turns, keys, |key| self.ahash.get(key).copied())),
            ("fxhash", all(turns, keys, |key| self.fx.get(key).copied())),
            ("phf", all(turns, keys, |key| self.phf.get(key).copied())),
            (FST, all(turns, keys, |key| self.fst.get(key).map(|value| value as usize))),
        ]
    }

    /// Listings of all pairs that lend their keys, each this many times.
    pub fn listings<'a>(&'a self, turns: usize) -> Contestants<'a> {
        let ordered = || self.ordered.iter().map(|(key, value)| key.len().wrapping_add(*value)).fold(0, usize::wrapping_add);
        vec![("BTreeMap", turned(turns, ordered)), (FST, turned(turns, || fst_listed(&self.fst)))]
    }
}
