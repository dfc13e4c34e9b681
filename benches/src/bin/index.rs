//! Times an index beside a trie, std's maps and those of other crates: look-ups, sizes, validation and builds.

use benches::Kind;
use benches::asked::Asked;
use benches::library::{self, Build};
use benches::peers::Peers;
use benches::sets::{self, Random, Set};
use benches::table::{Contestants, Table, agreed, all, best, turned};
use std::collections::HashMap;
use zerotrie::index::ZeroIndex;

/// How often a set is gone over in a round, so that a round of a small one can be timed.
fn turns_of(set: &Set) -> usize {
    (50_000 / set.keys.len()).max(1)
}

fn index_of(set: &Set) -> Vec<u8> {
    let mut build = Build::new(&set.pairs().collect::<Vec<_>>());
    let len = build.index();
    build.into_bytes(len)
}

/// Look-ups. Each key that is asked for lies in memory of its own, as a program has keys from elsewhere, and they come in random order.
fn look_ups(title: &str, sets: &[Set], rounds: usize, asked: impl Fn(&Set) -> Vec<Vec<u8>>) -> Table {
    let mut table = Table::of_shares(title);
    for set in sets {
        let peers = Peers::of(set);
        let bytes = &index_of(set);
        let plain = ZeroIndex::try_from_store(bytes.as_slice()).unwrap();
        let opened = plain.opened();
        let is_ascii = set.keys.iter().all(|key| key.is_ascii());
        let trie = is_ascii.then(|| library::built(Kind::Simple, set.pairs()));
        let owned = asked(set);
        let mut keys: Vec<&[u8]> = owned.iter().map(Vec::as_slice).collect();
        Random::new(43).shuffle(&mut keys);
        let turns = turns_of(set);
        let mut contestants: Contestants<'_> = vec![
            ("the index", all(turns, &keys, |key| library::index_get(bytes, key))),
            ("the index of plain Rust", all(turns, &keys, |key| plain.get(key))),
            ("the same, opened once", all(turns, &keys, |key| opened.get(key))),
        ];
        if let Some(trie) = &trie {
            contestants.push(("a trie", all(turns, &keys, |key| library::get(Kind::Simple, trie, key))));
        }
        contestants.extend(peers.look_ups(turns, &keys));
        agreed(&mut contestants, &set.name);
        table.measure(set.name.clone(), rounds, turns * keys.len(), contestants);
    }
    table
}

fn builds(title: &str, sets: &[Set], rounds: usize, is_sorted: bool) -> Table {
    let mut table = Table::of_shares(title);
    for set in sets {
        let mut pairs: Vec<(&[u8], usize)> = set.pairs().collect();
        if !is_sorted {
            Random::new(47).shuffle(&mut pairs);
        }
        let mut build = Build::new(&pairs);
        let turns = turns_of(set);
        let plain = || match is_sorted {
            true => ZeroIndex::try_from_sorted_slice(&pairs).unwrap().as_bytes().len(),
            false => ZeroIndex::try_from_iter(pairs.iter().copied()).unwrap().as_bytes().len(),
        };
        let owned = || pairs.iter().map(|(key, value)| (key.to_vec(), *value)).collect::<HashMap<Vec<u8>, usize>>().len();
        let contestants: Contestants<'_> = vec![
            ("the index", turned(turns, || build.index())),
            ("the index of plain Rust", turned(turns, plain)),
            ("HashMap of owned keys", turned(turns, owned)),
        ];
        table.measure(set.name.clone(), rounds, turns * pairs.len(), contestants);
    }
    table
}

fn sizes(sets: &[Set], rounds: usize) -> Table {
    let mut table = Table::plain("Bytes a key of an index, and validation, MB a second");
    for set in sets {
        let bytes = &index_of(set);
        let each = |bytes: usize| bytes as f64 / set.keys.len() as f64;
        let turns = (200_000 / bytes.len()).max(1);
        let mut contestants: Contestants<'_> = vec![("validation", turned(turns, || library::index_is_valid(bytes) as usize))];
        assert_eq!(agreed(&mut contestants, &set.name), turns, "a built index is not valid");
        let times = best(rounds, turns * bytes.len(), &mut contestants);
        let keys_alone = each(set.keys.iter().map(Vec::len).sum());
        let values = vec![("the index", each(bytes.len())), ("the keys alone", keys_alone), ("validation", 1000.0 / times[0].1)];
        table.add(set.name.clone(), values);
    }
    table
}

fn main() {
    let asked = Asked::begin();
    let (sets, rounds) = (&asked.sets(), asked.rounds);
    look_ups("Look-ups in an index of keys that are there, shuffled, ns", sets, rounds, |set| set.keys.clone()).print();
    look_ups("Look-ups in an index of keys that are not there, ns", sets, rounds, sets::misses).print();
    sizes(sets, rounds).print();
    builds("Indexes of sorted pairs, ns a pair", sets, rounds, true).print();
    builds("Indexes of shuffled pairs, ns a pair", sets, rounds, false).print();
}
