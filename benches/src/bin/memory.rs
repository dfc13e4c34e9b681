//! Counts the memory of maps and of builds by plain Rust, beside that of std's maps, of those of other crates, and of the Rust crate where
//! ZEROTRIE_SOURCE names its source.

#[path = "../../../tests/hostile/memory.rs"]
mod memory;

use benches::asked::Asked;
#[cfg(original)]
use benches::original;
use benches::peers::{self, FST, owned};
use benches::sets::{self, Random, Set};
use benches::table::{Contestants, Table, Work, best};
use benches::{Kind, by_type, kinds_of};
use std::collections::{BTreeMap, HashMap};
use std::process::Command;
use zerotrie::index::ZeroIndex;

/// The most bytes that the work holds at once, beside those that were held before it.
fn peak_of(work: impl FnOnce()) -> usize {
    memory::peak();
    let before = memory::held();
    work();
    memory::peak() - before
}

/// How many bytes a map holds.
fn held_by<M>(make: impl FnOnce() -> M) -> usize {
    let before = memory::held();
    let _map = make();
    memory::held() - before
}

type Pair<'a> = (&'a [u8], usize);

/// The bytes of the trie of a set.
fn bytes_of(kind: Kind, set: &Set) -> Vec<u8> {
    let pairs: Vec<Pair<'_>> = set.pairs().collect();
    by_type!(kind, zerotrie, Trie => Trie::try_from_sorted_slice(&pairs).unwrap().into_store())
}

/// What the maps of a set hold. A trie of `bytes` is those bytes.
fn held(sets: &[Set]) -> Table {
    let mut table = Table::plain("Bytes a key that a map holds");
    for set in sets {
        // the two other kinds have as many bytes: case does not count, and wider offsets are for more
        let kinds = kinds_of(&set.keys).into_iter().filter(|kind| matches!(kind, Kind::Simple | Kind::Hash));
        let mut values: Vec<(&str, usize)> = kinds.map(|kind| (kind.name(), bytes_of(kind, set).len())).collect();
        values.extend([
            (FST, peers::fst_bytes(set).len()),
            ("phf", peers::phf_bytes(&peers::phf_of(set))),
            ("BTreeMap", held_by(|| owned::<BTreeMap<_, _>>(set))),
            ("HashMap", held_by(|| owned::<HashMap<_, _>>(set))),
            ("the keys alone", set.keys.iter().map(Vec::len).sum()),
        ]);
        let each = values.into_iter().map(|(name, bytes)| (name, bytes as f64 / set.keys.len() as f64)).collect();
        table.add(set.name.clone(), each);
    }
    table
}

/// How many bytes the program zstd makes of these, at its level 19.
fn compressed(bytes: &[u8]) -> usize {
    let file = std::env::temp_dir().join(format!("zerotrie-shipped-{}", std::process::id()));
    std::fs::write(&file, bytes).unwrap();
    let made = Command::new("zstd").args(["-19", "-q", "-c"]).arg(&file).output().expect("Debian's zstd is not installed");
    std::fs::remove_file(&file).unwrap();
    made.stdout.len()
}

/// What is shipped of a set: with the numbers of the keys in their order as values, and with zeros.
fn shipped(sets: &[Set]) -> Table {
    let mut table = Table::plain("Bytes a key, compressed by zstd -19");
    for set in sets {
        let numbered = Set::numbered(&set.name, set.keys.clone());
        let zeros = Set { values: vec![0; set.keys.len()], ..Set::numbered(&set.name, set.keys.clone()) };
        let smallest = |set: &Set| kinds_of(&set.keys).iter().map(|kind| compressed(&bytes_of(*kind, set))).min().unwrap_or(0);
        let values: Vec<(&str, usize)> = vec![
            ("trie, numbered", smallest(&numbered)),
            ("trie, zeros", smallest(&zeros)),
            ("fst 0.3, numbered", compressed(&peers::fst_bytes(&numbered))),
            ("fst, zeros", compressed(&peers::fst_bytes(&zeros))),
            ("the keys as lines", compressed(&set.keys.join(&b'\n'))),
        ];
        table.add(set.name.clone(), values.into_iter().map(|(name, bytes)| (name, bytes as f64 / set.keys.len() as f64)).collect());
    }
    table
}

/// Where a build takes its pairs from. The crate has none from a slice, and takes a map.
#[derive(Clone, Copy)]
enum Route {
    Slice,
    Map,
    Iterator,
}

/// A build of plain Rust, from pairs or from the map of them; it returns the length.
fn build(kind: Kind, route: Route, pairs: &[Pair<'_>], map: &BTreeMap<&[u8], usize>) -> usize {
    by_type!(kind, zerotrie, Trie => match route {
        Route::Slice => Trie::try_from_sorted_slice(pairs).unwrap().byte_len(),
        Route::Map => Trie::<Vec<u8>>::try_from(map).unwrap().byte_len(),
        Route::Iterator => Trie::try_from_iter(pairs.iter().copied()).unwrap().byte_len(),
    })
}

#[cfg(original)]
fn build_of_crate(kind: Kind, route: Route, pairs: &[Pair<'_>], map: &BTreeMap<&[u8], usize>) -> usize {
    by_type!(kind, original, Trie => match route {
        Route::Slice | Route::Map => Trie::<Vec<u8>>::try_from(map).unwrap().byte_len(),
        Route::Iterator => pairs.iter().copied().collect::<Trie<Vec<u8>>>().byte_len(),
    })
}

fn shuffled_pairs(set: &Set) -> Vec<(&[u8], usize)> {
    let mut pairs: Vec<_> = set.pairs().collect();
    Random::new(47).shuffle(&mut pairs);
    pairs
}

/// Bytes a key at the peaks of builds, by each kind and from each source.
fn peaks(sets: &[Set]) -> Table {
    let mut table = Table::of_shares("Bytes a key at the peak of a build");
    for set in sets {
        let sorted: Vec<_> = set.pairs().collect();
        let shuffled = shuffled_pairs(set);
        for kind in kinds_of(&set.keys) {
            for (what, route, pairs) in [
                ("sorted slice", Route::Slice, &sorted),
                ("map", Route::Map, &sorted),
                ("ascending iterator", Route::Iterator, &sorted),
                ("iterator", Route::Iterator, &shuffled),
            ] {
                let map = pairs.iter().copied().collect();
                let each = |work: &dyn Fn() -> usize| peak_of(|| assert!(work() > 0)) as f64 / set.keys.len() as f64;
                let values = vec![
                    ("plain Rust", each(&|| build(kind, route, pairs, &map))),
                    #[cfg(original)]
                    ("the crate", each(&|| build_of_crate(kind, route, pairs, &map))),
                ];
                table.add(format!("{}, {}, {what}", set.name, kind.name()), values);
            }
        }
    }
    table
}

/// The peaks of large builds in the kind simple, beside fst, which needs not hold what it writes.
fn large_peaks(sets: &[Set]) -> Table {
    let mut table = Table::plain("Bytes at the peak of a build, of each byte of the keys");
    for set in sets {
        let sorted: Vec<_> = set.pairs().collect();
        let (shuffled, map) = (shuffled_pairs(set), BTreeMap::new());
        let works: Contestants<'_> = vec![
            ("sorted slice", Box::new(|| build(Kind::Simple, Route::Slice, &sorted, &map))),
            ("any order", Box::new(|| build(Kind::Simple, Route::Iterator, &shuffled, &map))),
            ("an index, sorted", Box::new(|| ZeroIndex::try_from_sorted_slice(&sorted).unwrap().as_bytes().len())),
            ("an index, any order", Box::new(|| ZeroIndex::try_from_iter(shuffled.iter().copied()).unwrap().as_bytes().len())),
            ("fst 0.3, to memory", Box::new(|| peers::fst_bytes(set).len())),
            (
                "fst, to a file",
                Box::new(|| {
                    peers::fst_into(std::io::sink(), set);
                    1
                }),
            ),
        ];
        let keys: usize = set.keys.iter().map(Vec::len).sum();
        table.add(set.name.clone(), peaks_of(works, keys));
    }
    table
}

/// The peak of each build for one of this many items.
fn peaks_of(works: Contestants<'_>, items: usize) -> Vec<(&'static str, f64)> {
    let each = |mut work: Work<'_>| peak_of(|| assert!(work() > 0)) as f64 / items as f64;
    works.into_iter().map(|(name, work)| (name, each(work))).collect()
}

/// Time and memory of builds from 1,000 to 1,000,000 made words: of pairs that ascend, or of the same pairs shuffled.
fn growth(kind: Kind, rounds: usize) -> [Table; 2] {
    let mut times = Table::plain(&format!("Builds of this many words, ns a key, {}", kind.name()));
    let mut peaks = Table::plain(&format!("Builds of this many words, bytes a key at the peak, {}", kind.name()));
    for count in [1_000, 3_000, 10_000, 30_000, 100_000, 300_000, 1_000_000] {
        let set = Set::numbered("words", sets::words(29, count));
        let sorted: Vec<_> = set.pairs().collect();
        let (shuffled, map) = (shuffled_pairs(&set), sorted.iter().copied().collect());
        let works = || -> Contestants<'_> {
            vec![
                ("sorted slice", Box::new(|| build(kind, Route::Slice, &sorted, &map))),
                ("ascending iterator", Box::new(|| build(kind, Route::Iterator, &sorted, &map))),
                ("iterator", Box::new(|| build(kind, Route::Iterator, &shuffled, &map))),
                #[cfg(original)]
                ("the crate, map", Box::new(|| build_of_crate(kind, Route::Map, &sorted, &map))),
                #[cfg(original)]
                ("the crate, iterator", Box::new(|| build_of_crate(kind, Route::Iterator, &shuffled, &map))),
                ("fst 0.3, ascending", Box::new(|| peers::fst_bytes(&set).len())),
            ]
        };
        times.add(sets::grouped(count), best(rounds, count, &mut works()));
        peaks.add(sets::grouped(count), peaks_of(works(), count));
    }
    [times, peaks]
}

fn main() {
    let asked = Asked::begin();
    let sets = &asked.sets();
    type Measure<'a> = Box<dyn Fn() -> Vec<Table> + 'a>;
    let parts: [(&str, Measure<'_>); 5] = [
        ("held", Box::new(|| vec![held(sets)])),
        ("peaks", Box::new(|| vec![peaks(sets)])),
        ("large", Box::new(|| vec![large_peaks(&asked.large_sets())])),
        ("shipped", Box::new(|| vec![shipped(sets)])),
        ("growth", Box::new(|| growth(Kind::Simple, asked.rounds).into())),
    ];
    for (_, measure) in parts.iter().filter(|(part, _)| asked.wants(part)) {
        measure().iter().for_each(Table::print);
    }
}
