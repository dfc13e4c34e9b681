//! Times the library beside plain Rust, std's maps, those of other crates, and the Rust crate where ZEROTRIE_SOURCE names its source.

use benches::asked::Asked;
use benches::library::{self, Build, Rooms};
#[cfg(original)]
use benches::original;
use benches::peers::{self, Peers};
use benches::sets::{self, Flat, Random, Set};
use benches::table::{Contestants, Table, agreed, all, asked_by, best, turned};
use benches::{Kind, by_type, walker};
use std::collections::BTreeMap;
use std::hint::black_box;
use zerotrie::dense::{ZeroAsciiDenseSparse2dTrieBorrowed, ZeroAsciiDenseSparse2dTrieOwned};
use zerotrie::rstd::alloc::Global;
use zerotrie::zerotrie_core::PerfectByteHashMap;

/// How often a set is gone over in a round, so that a round of a small one can be timed.
fn turns_of(set: &Set) -> usize {
    (20_000 / set.keys.len()).max(1)
}

fn row_of(set: &Set, kind: Kind) -> String {
    format!("{}, {}", set.name, kind.name())
}

fn shuffled(keys: &[Vec<u8>]) -> Vec<&[u8]> {
    let mut keys: Vec<&[u8]> = keys.iter().map(Vec::as_slice).collect();
    Random::new(43).shuffle(&mut keys);
    keys
}

/// How the keys lie that are asked for. They are never those of the maps.
#[derive(Clone, Copy, PartialEq)]
enum Lie {
    /// Each in memory of its own, as a program has keys from elsewhere, and asked for in random order.
    Apart,
    /// One after another, in the random order in which they are asked for, so that the next ones are at hand.
    InARow,
    /// Each in memory of its own, and asked for in order.
    InOrder,
}

fn look_ups(title: &str, sets: &[Set], asked: &Asked, lie: Lie, keys: impl Fn(&Set) -> Vec<Vec<u8>>) -> Table {
    let mut table = Table::of_shares(title);
    for set in sets {
        let peers = Peers::of(set);
        let owned = keys(set);
        let flat = Flat::of(shuffled(&owned));
        let keys = &match lie {
            Lie::Apart => shuffled(&owned),
            Lie::InARow => flat.slices(),
            Lie::InOrder => owned.iter().map(Vec::as_slice).collect(),
        };
        let turns = turns_of(set);
        for kind in asked.kinds_of(set) {
            let bytes = &library::built(kind, set.pairs());
            let mut contestants: Contestants<'_> = vec![
                ("here", all(turns, keys, |key| library::get(kind, bytes, key))),
                ("plain Rust", by_type!(kind, zerotrie, Trie => all(turns, keys, |key| Trie::from_bytes(bytes).get(key)))),
                #[cfg(original)]
                ("the crate", by_type!(kind, original, Trie => all(turns, keys, |key| Trie::from_bytes(bytes).get(key)))),
            ];
            contestants.extend(peers.look_ups(turns, keys));
            agreed(&mut contestants, &set.name);
            table.measure(row_of(set, kind), asked.rounds, turns * keys.len(), contestants);
        }
    }
    table
}

/// Look-ups of all keys of a set by one `LookUps` of plain Rust, beside its `get`.
fn kept(sets: &[Set], asked: &Asked) -> Table {
    let mut table = Table::of_shares("Look-ups by one `LookUps`, shuffled, ns");
    for set in sets {
        for (name, owned) in [("hits", set.keys.clone()), ("misses", sets::misses(set))] {
            let keys = &shuffled(&owned);
            let turns = turns_of(set);
            for kind in asked.kinds_of(set) {
                let bytes = &library::built(kind, set.pairs());
                let kept = || {
                    by_type!(kind, zerotrie, Trie => {
                        let mut trie = Trie::from_bytes(bytes).look_ups();
                        asked_by(keys, |key| trie.get(key))
                    })
                };
                let get = by_type!(kind, zerotrie, Trie => all(turns, keys, |key| Trie::from_bytes(bytes).get(key)));
                let mut contestants: Contestants<'_> = vec![("`LookUps`", turned(turns, kept)), ("`get`", get)];
                agreed(&mut contestants, &set.name);
                table.measure(format!("{}, {name}", row_of(set, kind)), asked.rounds, turns * keys.len(), contestants);
            }
        }
    }
    table
}

/// Look-ups of all keys of a set by one call through C.
fn many(sets: &[Set], asked: &Asked) -> Table {
    let mut table = Table::of_shares("Look-ups of many keys by one call, shuffled, in a row, ns");
    for set in sets {
        for (name, owned) in [("hits", set.keys.clone()), ("misses", sets::misses(set))] {
            let flat = &Flat::of(shuffled(&owned));
            let keys = &flat.slices();
            let turns = turns_of(set);
            for kind in asked.kinds_of(set) {
                let bytes = &library::built(kind, set.pairs());
                let mut values = vec![0; keys.len()];
                let by_one_call = move || {
                    library::get_many(kind, bytes, flat, &mut values);
                    values.iter().copied().fold(0, usize::wrapping_add)
                };
                let mut contestants: Contestants<'_> = vec![
                    ("here", turned(turns, by_one_call)),
                    ("one by one", all(turns, keys, |key| library::get(kind, bytes, key))),
                    #[cfg(original)]
                    ("the crate", by_type!(kind, original, Trie => all(turns, keys, |key| Trie::from_bytes(bytes).get(key)))),
                ];
                agreed(&mut contestants, &set.name);
                table.measure(format!("{}, {name}", row_of(set, kind)), asked.rounds, turns * keys.len(), contestants);
            }
        }
    }
    table
}

/// The sum of the lengths of the keys and of the values, by a stream of plain Rust, whose keys are borrowed.
fn streamed(kind: Kind, bytes: &[u8]) -> usize {
    let mut pairs = by_type!(kind, zerotrie, Trie => Trie::from_bytes(bytes).stream());
    let mut sum = 0usize;
    while pairs.advance() {
        sum = sum.wrapping_add(pairs.key().len()).wrapping_add(pairs.value());
    }
    sum
}

/// The same by an iterator of a package.
macro_rules! iterated {
    ($package:ident, $kind:expr, $bytes:expr) => {
        by_type!($kind, $package, Trie => Trie::from_bytes($bytes).iter().map(|(key, value)| key.len() + value).sum::<usize>())
    };
}

fn listings(sets: &[Set], asked: &Asked) -> Table {
    let mut table = Table::of_shares("Listings, ns a pair");
    for set in sets {
        let peers = Peers::of(set);
        let turns = turns_of(set);
        for kind in asked.kinds_of(set) {
            let bytes = &library::built(kind, set.pairs());
            let mut contestants: Contestants<'_> = vec![
                ("plain Rust, a stream", turned(turns, || streamed(kind, bytes))),
                ("a walker by hand", turned(turns, || walker::listed(kind, bytes))),
                ("plain Rust, an iterator", turned(turns, || iterated!(zerotrie, kind, bytes))),
                #[cfg(original)]
                ("the crate", turned(turns, || iterated!(original, kind, bytes))),
            ];
            contestants.extend(peers.listings(turns));
            agreed(&mut contestants, &set.name);
            table.measure(row_of(set, kind), asked.rounds, turns * set.keys.len(), contestants);
        }
    }
    table
}

/// Listings through C, whose parts have some thousand pairs.
fn listings_in_parts(sets: &[Set], asked: &Asked) -> Table {
    let mut table = Table::of_shares("Listings in parts, ns a pair");
    for set in sets {
        let turns = turns_of(set);
        for kind in asked.kinds_of(set) {
            let bytes = &library::built(kind, set.pairs());
            let mut rooms = Rooms::default();
            let in_parts = move || {
                let found = rooms.listed(kind, bytes, b"");
                found.key_bytes.wrapping_add(found.values)
            };
            let mut contestants: Contestants<'_> = vec![
                ("here", turned(turns, in_parts)),
                ("plain Rust, an iterator", turned(turns, || iterated!(zerotrie, kind, bytes))),
                #[cfg(original)]
                ("the crate", turned(turns, || iterated!(original, kind, bytes))),
            ];
            agreed(&mut contestants, &set.name);
            table.measure(row_of(set, kind), asked.rounds, turns * set.keys.len(), contestants);
        }
    }
    table
}

fn ordered_maps(sets: &[Set], asked: &Asked) -> Table {
    let mut table = Table::of_shares("Ordered maps from a trie, ns a pair");
    for set in sets {
        let turns = turns_of(set);
        for kind in asked.kinds_of(set) {
            let bytes = &library::built(kind, set.pairs());
            let contestants: Contestants<'_> = vec![
                ("plain Rust", turned(turns, || by_type!(kind, zerotrie, Trie => Trie::from_bytes(bytes).to_btreemap().len()))),
                #[cfg(original)]
                ("the crate", turned(turns, || by_type!(kind, original, Trie => Trie::from_bytes(bytes).to_btreemap().len()))),
            ];
            table.measure(row_of(set, kind), asked.rounds, turns * set.keys.len(), contestants);
        }
    }
    table
}

/// Look-ups of all keys by a cursor's steps.
macro_rules! stepped {
    ($trie:ident, $bytes:expr, $keys:expr) => {
        asked_by($keys, |key| {
            let mut cursor = $trie::from_bytes($bytes).cursor();
            for byte in key {
                cursor.step(*byte);
            }
            cursor.take_value()
        })
    };
}

fn cursors(sets: &[Set], asked: &Asked) -> Table {
    let mut table = Table::of_shares("Cursors, ns a step");
    for set in sets {
        let flat = Flat::of(shuffled(&set.keys));
        let keys = &flat.slices();
        let turns = turns_of(set);
        for kind in asked.kinds_of(set) {
            let bytes = &library::built(kind, set.pairs());
            let mut contestants: Contestants<'_> = vec![
                ("here", all(turns, keys, |key| library::stepped(kind, bytes, key))),
                ("plain Rust", turned(turns, || by_type!(kind, zerotrie, Trie => stepped!(Trie, bytes, keys)))),
            ];
            #[cfg(original)]
            {
                use original::{ZeroAsciiIgnoreCaseTrie, ZeroTrieSimpleAscii};
                // its hashed kinds have no cursor
                match kind {
                    Kind::Simple => contestants.push(("the crate", turned(turns, || stepped!(ZeroTrieSimpleAscii, bytes, keys)))),
                    Kind::Ignore => contestants.push(("the crate", turned(turns, || stepped!(ZeroAsciiIgnoreCaseTrie, bytes, keys)))),
                    Kind::Hash | Kind::Ext => {}
                }
            }
            agreed(&mut contestants, &set.name);
            table.measure(row_of(set, kind), asked.rounds, turns * flat.keys.len(), contestants);
        }
    }
    table
}

/// Validation, and the opening of a sealed file, which reads its checksum, beside another checksum and a copy.
fn validation(sets: &[Set], asked: &Asked) -> Table {
    let mut table = Table::plain("Validation and opening, GB a second");
    for set in sets {
        for kind in asked.kinds_of(set) {
            let bytes = &library::built(kind, set.pairs());
            let turns = (200_000 / bytes.len()).max(1);
            let plain = move || by_type!(kind, zerotrie, Trie => Trie::from_bytes(bytes).is_well_formed()) as usize;
            let (file, mut copy) = (&library::sealed(kind, bytes), bytes.clone());
            let copied = move || {
                copy.copy_from_slice(black_box(bytes));
                black_box(&copy).len()
            };
            let mut contestants: Contestants<'_> = vec![
                ("validation", turned(turns, || library::is_well_formed(kind, bytes) as usize)),
                ("plain Rust", turned(turns, plain)),
                ("opening", turned(turns, || library::opened(file))),
                ("crc32fast", turned(turns, || crc32fast::hash(black_box(bytes)) as usize)),
                ("memcpy", turned(turns, copied)),
            ];
            let times = best(asked.rounds, turns * bytes.len(), &mut contestants);
            table.add(row_of(set, kind), times.into_iter().map(|(name, time)| (name, 1.0 / time)).collect());
        }
    }
    table
}

/// Builds: of pairs that ascend (the crate's from a map), or in any order.
fn builds(title: &str, sets: &[Set], asked: &Asked, is_sorted: bool) -> Table {
    let mut table = Table::of_shares(title);
    for set in sets {
        let mut pairs: Vec<(&[u8], usize)> = set.pairs().collect();
        if !is_sorted {
            Random::new(47).shuffle(&mut pairs);
        }
        let turns = (50_000 / pairs.len()).max(1);
        let pairs = &pairs;
        #[cfg(original)]
        let ordered: &BTreeMap<&[u8], usize> = &pairs.iter().copied().collect();
        for kind in asked.kinds_of(set) {
            let mut build = Build::new(pairs);
            let plain = move || {
                by_type!(kind, zerotrie, Trie => match is_sorted {
                    true => Trie::try_from_sorted_slice(pairs).unwrap().byte_len(),
                    false => Trie::try_from_iter(pairs.iter().copied()).unwrap().byte_len(),
                })
            };
            #[cfg(original)]
            let theirs = move || {
                by_type!(kind, original, Trie => match is_sorted {
                    true => Trie::<Vec<u8>>::try_from(ordered).unwrap().byte_len(),
                    false => pairs.iter().copied().collect::<Trie<Vec<u8>>>().byte_len(),
                })
            };
            let mut contestants: Contestants<'_> = vec![
                ("here", turned(turns, move || if is_sorted { build.sorted_trie(kind) } else { build.trie(kind) })),
                ("plain Rust", turned(turns, plain)),
                #[cfg(original)]
                ("the crate", turned(turns, theirs)),
                ("BTreeMap", turned(turns, || pairs.iter().copied().collect::<BTreeMap<_, _>>().len())),
            ];
            contestants.extend(is_sorted.then(|| (peers::FST, turned(turns, || peers::fst_bytes(set).len()))));
            table.measure(row_of(set, kind), asked.rounds, turns * pairs.len(), contestants);
        }
    }
    table
}

/// The rows of a table.
fn rows_of(table: &sets::Table) -> BTreeMap<&str, BTreeMap<&str, usize>> {
    let mut rows: BTreeMap<&str, BTreeMap<&str, usize>> = BTreeMap::new();
    for (prefix, suffix, value) in &table.entries {
        rows.entry(prefix).or_default().insert(suffix, *value);
    }
    rows
}

/// Asks for each prefix and suffix, and adds up what is found.
fn asked_in_rows(pairs: &[(&str, &str)], get: impl Fn(&str, &str) -> Option<usize>) -> usize {
    pairs.iter().map(|(prefix, suffix)| get(prefix, suffix).unwrap_or(1)).fold(0, usize::wrapping_add)
}

/// The prefixes, the suffixes and the values of a table.
fn columns_of(table: &sets::Table) -> (Flat, Flat, Vec<usize>) {
    let entries = &table.entries;
    (Flat::of(entries.iter().map(|it| &it.0)), Flat::of(entries.iter().map(|it| &it.1)), entries.iter().map(|it| it.2).collect())
}

fn dense_look_ups(tables: &[sets::Table], asked: &Asked) -> Table {
    let mut measured = Table::of_shares("Dense tables, ns a look-up");
    for table in tables {
        let rows = &rows_of(table);
        let (prefixes, suffixes, values) = columns_of(table);
        let mut record = vec![0; 64 * (prefixes.keys.len() + suffixes.keys.len() + values.len()) + 64];
        let len = library::dense_build(&prefixes, &suffixes, &values, &mut record);
        let record = &record[..len];
        let plain = ZeroAsciiDenseSparse2dTrieBorrowed::try_from_record_bytes(record).unwrap();
        #[cfg(original)]
        let original = &original::dense::ZeroAsciiDenseSparse2dTrieOwned::try_from_btree_map_str(rows, b'/').unwrap();
        let mut held: Vec<(&str, &str)> = table.entries.iter().map(|(prefix, suffix, _)| (prefix.as_str(), suffix.as_str())).collect();
        let absent = sets::absent(table);
        let missing: Vec<(&str, &str)> = absent.iter().map(|(prefix, suffix)| (prefix.as_str(), suffix.as_str())).collect();
        Random::new(43).shuffle(&mut held);
        for (what, pairs) in [("hits, shuffled", &held), ("misses", &missing)] {
            let turns = (20_000 / pairs.len()).max(1);
            let mut contestants: Contestants<'_> = vec![
                ("here", turned(turns, || asked_in_rows(pairs, |prefix, suffix| library::dense_get(record, prefix, suffix)))),
                ("plain Rust", turned(turns, || asked_in_rows(pairs, |prefix, suffix| plain.get(prefix, suffix)))),
                #[cfg(original)]
                ("the crate", turned(turns, || asked_in_rows(pairs, |prefix, suffix| original.as_borrowed().get(prefix, suffix)))),
                ("BTreeMap", turned(turns, || asked_in_rows(pairs, |prefix, suffix| rows.get(prefix)?.get(suffix).copied()))),
            ];
            agreed(&mut contestants, table.name);
            measured.measure(format!("{}, {what}", table.name), asked.rounds, turns * pairs.len(), contestants);
        }
    }
    measured
}

fn dense_builds(tables: &[sets::Table], asked: &Asked) -> Table {
    let mut measured = Table::of_shares("Dense tables, ns an entry of a build");
    for table in tables {
        let (prefixes, suffixes, values) = &columns_of(table);
        let rows = &rows_of(table);
        let turns = (500_000 / values.len()).max(1);
        let mut out = vec![0; 64 * (prefixes.keys.len() + suffixes.keys.len() + values.len()) + 64];
        let plain = || ZeroAsciiDenseSparse2dTrieOwned::try_from_btree_map_str(rows, b'/').unwrap().as_borrowed().to_record_bytes().len();
        #[cfg(original)]
        let theirs = || {
            let made = original::dense::ZeroAsciiDenseSparse2dTrieOwned::try_from_btree_map_str(rows, b'/').unwrap();
            made.as_borrowed().get("", "").unwrap_or(1)
        };
        let contestants: Contestants<'_> = vec![
            ("here", turned(turns, || library::dense_build(prefixes, suffixes, values, &mut out))),
            ("plain Rust", turned(turns, plain)),
            #[cfg(original)]
            ("the crate", turned(turns, theirs)),
        ];
        measured.measure(String::from(table.name), asked.rounds, turns * values.len(), contestants);
    }
    measured
}

fn hash_search(asked: &Asked) -> Table {
    let mut table = Table::of_shares("Tables of hashed branches, ns each");
    for count in [16, 32, 64, 128, 240, 255] {
        let mut keys: Vec<u8> = (0..=255).collect();
        Random::new(53).shuffle(&mut keys);
        keys.truncate(count);
        let keys = &keys;
        let contestants: Contestants<'_> = vec![
            ("plain Rust", turned(20, || PerfectByteHashMap::try_new(Global, keys).unwrap().as_bytes().len())),
            #[cfg(original)]
            ("the crate", turned(20, || original::_internal::PerfectByteHashMap::try_new(keys).unwrap().as_bytes().len())),
        ];
        table.measure(format!("{count} keys"), asked.rounds, 20, contestants);
    }
    table
}

fn main() {
    let asked = &Asked::begin();
    let sets = &asked.sets();
    let mut tables = sets::tables();
    tables.retain(|table| table.name.contains(&asked.set));
    let hits = |set: &Set| set.keys.clone();
    type Measure<'a> = Box<dyn Fn() -> Table + 'a>;
    let parts: Vec<(&str, Measure<'_>)> = vec![
        ("hits", Box::new(|| look_ups("Look-ups of keys that are there, shuffled, ns", sets, asked, Lie::Apart, hits))),
        ("row", Box::new(|| look_ups("Look-ups of keys that are there, shuffled, in a row, ns", sets, asked, Lie::InARow, hits))),
        ("order", Box::new(|| look_ups("Look-ups of keys that are there, in order, ns", sets, asked, Lie::InOrder, hits))),
        ("misses", Box::new(|| look_ups("Look-ups of keys that are not there, ns", sets, asked, Lie::Apart, sets::misses))),
        ("kept", Box::new(|| kept(sets, asked))),
        ("many", Box::new(|| many(sets, asked))),
        ("listings", Box::new(|| listings(sets, asked))),
        ("listings in parts", Box::new(|| listings_in_parts(sets, asked))),
        ("maps", Box::new(|| ordered_maps(sets, asked))),
        ("cursors", Box::new(|| cursors(sets, asked))),
        ("validation", Box::new(|| validation(sets, asked))),
        ("sorted builds", Box::new(|| builds("Builds of sorted pairs, ns a pair", sets, asked, true))),
        ("shuffled builds", Box::new(|| builds("Builds of shuffled pairs, ns a pair", sets, asked, false))),
        ("dense look-ups", Box::new(|| dense_look_ups(&tables, asked))),
        ("dense builds", Box::new(|| dense_builds(&tables, asked))),
        ("hashes", Box::new(|| hash_search(asked))),
    ];
    for (_, measure) in parts.iter().filter(|(part, _)| asked.wants(part)) {
        measure().print();
    }
}
