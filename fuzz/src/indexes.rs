//! Gives bytes of every sort to the calls over an index. All have to return, and on an index of pairs to find these.

use crate::brute::Pair;
use crate::random::Random;
use zerotrie::index::{ZeroIndex, ZeroIndexBuildError};

const PI: u64 = 0x243F_6A88_85A3_08D3;
const GOLDEN: u64 = 0x9E37_79B9_7F4A_7C15;

fn key(random: &mut Random) -> Vec<u8> {
    match random.below(8) {
        0 => vec![b'a'; random.below(100)],
        1 => (0..random.below(9)).map(|_| random.next() as u8).collect(),
        _ => (0..random.below(4)).map(|_| random.pick(b"ab")).collect(),
    }
}

/// Bytes that are an index of pairs have all of them and no others, and an index is not the same bytes with fewer or more.
fn look(bytes: &[u8], pairs: &[Pair], others: &[Vec<u8>]) {
    let is_index = |bytes: &[u8]| ZeroIndex::from_store(bytes).is_well_formed();
    assert!(is_index(bytes), "a built index is none: {bytes:02x?}");
    for key in pairs.iter().map(|pair| &pair.0).chain(others) {
        let wanted = pairs.iter().find(|pair| pair.0 == *key).map(|pair| pair.1);
        let index = ZeroIndex::from_store(bytes);
        assert_eq!(index.get(key), wanted, "{key:02x?} in the index {bytes:02x?}");
        assert_eq!(index.opened().get(key), wanted, "{key:02x?} in the opened index {bytes:02x?}");
    }
    for wrong in [&bytes[..bytes.len() - 1], &bytes[1..], &[bytes, &[0]].concat()] {
        assert!(!is_index(wrong), "an index with fewer bytes or more: {wrong:02x?}");
    }
}

/// Compares an index of random pairs, and gives damaged bytes to the calls.
pub fn compare(random: &mut Random) {
    let pairs = random.pairs(key);
    let keys: Vec<Vec<u8>> = (0..3).map(|_| key(random)).collect();
    let built = match random.below(4) {
        0 => ZeroIndex::try_from_sorted_slice(&pairs),
        1 => ZeroIndex::try_from_iter(pairs.iter().rev().map(|(key, value)| (key, value))),
        _ => ZeroIndex::try_from_seed(random.next(), &pairs),
    };
    let mut bytes = built.expect("pairs with distinct keys").into_store();
    look(&bytes, &pairs, &keys);
    if random.below(8) == 0 {
        bytes = (0..random.below(60)).map(|_| if random.below(2) == 0 { 0 } else { random.next() as u8 }).collect();
    }
    // half of the changes are in the seed, the number of buckets and the entries
    let mut front: Vec<u8> = if random.below(2) == 0 { bytes.drain(..bytes.len().min(40)).collect() } else { Vec::new() };
    let times = 1 + random.below(3);
    random.damage(if front.is_empty() { &mut bytes } else { &mut front }, times);
    let damaged = ZeroIndex::from_store([front, bytes].concat());
    let is_index = damaged.is_well_formed();
    let opened = damaged.opened();
    for key in pairs.iter().map(|pair| &pair.0).chain(&keys) {
        assert_eq!(damaged.get(key), opened.get(key), "{key:02x?} in the damaged index {:02x?}", damaged.as_bytes());
    }
    std::hint::black_box(is_index);
}

/// The hash of a key of eight bytes, by docs/FORMAT.md.
fn hashed(seed: u64, key: [u8; 8]) -> u64 {
    let number = u64::from_le_bytes(key);
    let factor = seed.rotate_left(32) ^ GOLDEN ^ 8;
    let product = u128::from(number ^ seed ^ PI) * u128::from(number ^ factor);
    product as u64 ^ (product >> 64) as u64
}

/// 17 keys of eight bytes for one bucket under each of some seeds. A build takes the seed after them, and after eight it fails.
pub fn crowds() {
    for seeds in 1..=8u64 {
        let count = 2 * 17 * seeds;
        let mut pairs: Vec<Pair> = Vec::new();
        for tried in 0..seeds {
            let seed = tried.wrapping_mul(GOLDEN);
            let all = (0u64..).map(|number| (number << 8 | tried).to_le_bytes());
            let crowd = all.filter(|key| ((hashed(seed, *key) >> 32) * count) >> 32 == 0);
            pairs.extend(crowd.take(17).map(|key| (key.to_vec(), 5)));
        }
        match ZeroIndex::try_from_iter(pairs.iter().map(|(key, value)| (key, value))) {
            Ok(index) => {
                assert!(
                    seeds < 8 && index.as_bytes().starts_with(&seeds.wrapping_mul(GOLDEN).to_le_bytes()),
                    "another seed than number {seeds}"
                );
                look(index.as_bytes(), &pairs, &[]);
            }
            Err(error) => assert!(seeds == 8 && error == ZeroIndexBuildError::Crowded, "a build from seed {seeds} on fails"),
        }
    }
}
