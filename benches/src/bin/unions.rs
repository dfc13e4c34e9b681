//! Times unions of shards of a set, as rows and into the bytes of one trie, beside those of fst.

use benches::asked::Asked;
use benches::peers::{FST, fst_into, fst_of};
use benches::sets::{Random, Set, grouped};
use benches::table::{Contestants, Table, best};
use benches::{Kind, library};
use fst::Streamer;
use zerotrie::ZeroTrieSimpleAscii;
use zerotrie::sets::MergeAll;

/// The set in this many parts, each key in a random one.
fn shards_of(set: &Set, count: usize) -> Vec<Set> {
    let mut random = Random::new(89);
    let mut shards: Vec<Set> = (0..count).map(|_| Set::numbered("", Vec::new())).collect();
    for (key, value) in set.pairs() {
        let shard = &mut shards[random.below(count)];
        shard.keys.push(key.to_vec());
        shard.values.push(value);
    }
    shards
}

fn fst_union(maps: &[fst::Map]) -> fst::map::Union<'_> {
    maps.iter().collect::<fst::map::OpBuilder<'_>>().union()
}

fn fst_rows(maps: &[fst::Map]) -> usize {
    let (mut rows, mut count) = (fst_union(maps), 0);
    while rows.next().is_some() {
        count += 1;
    }
    count
}

fn fst_bytes(maps: &[fst::Map]) -> Vec<u8> {
    let (mut rows, mut builder) = (fst_union(maps), fst::MapBuilder::memory());
    while let Some((key, values)) = rows.next() {
        builder.insert(key, values[0].value).unwrap();
    }
    builder.into_inner().unwrap()
}

/// What each takes, in builds of the whole from sorted pairs by plain Rust.
fn unions(sets: &[Set], rounds: usize) -> Table {
    let mut table = Table::plain("Unions of disjoint shards, in builds of the whole");
    for set in sets {
        let whole = &library::built(Kind::Simple, set.pairs());
        let pairs: &Vec<_> = &set.pairs().collect();
        for count in [2, 5, 10, 40] {
            let shards = shards_of(set, count);
            let tries: &Vec<_> = &shards.iter().map(|shard| library::built(Kind::Simple, shard.pairs())).collect();
            let maps: &Vec<_> = &shards.iter().map(fst_of).collect();
            let mut room = vec![0; whole.len()];
            assert!(library::combined(Kind::Simple, tries, &mut room) == whole.len() && room == *whole);
            assert_eq!(fst_bytes(maps), fst_into(Vec::new(), set));
            let merged = || {
                let mut rows = MergeAll::new(tries.iter().map(|bytes| ZeroTrieSimpleAscii::from_bytes(bytes).stream_sorted(..)));
                std::iter::from_fn(|| rows.advance().then_some(())).count()
            };
            assert_eq!((merged(), fst_rows(maps)), (pairs.len(), pairs.len()));
            let mut contestants: Contestants<'_> = vec![
                ("plain Rust", Box::new(merged)),
                (FST, Box::new(|| fst_rows(maps))),
                ("here, into bytes", Box::new(move || library::combined(Kind::Simple, tries, &mut room))),
                ("fst, into bytes", Box::new(|| fst_bytes(maps).len())),
                ("a build by fst", Box::new(|| fst_into(Vec::new(), set).len())),
                ("a build", Box::new(|| ZeroTrieSimpleAscii::try_from_sorted_slice(pairs).unwrap().byte_len())),
            ];
            let mut times = best(rounds, 1, &mut contestants);
            let build = times.pop().unwrap().1;
            table.add(format!("{}, {}", set.name, grouped(count)), times.into_iter().map(|(name, time)| (name, time / build)).collect());
        }
    }
    table
}

fn main() {
    let asked = Asked::begin();
    let mut sets = asked.sets();
    // shards of random bytes may have no perfect hash
    sets.retain(|set| set.keys.iter().all(|key| key.is_ascii()));
    unions(&sets, asked.rounds).print();
}
