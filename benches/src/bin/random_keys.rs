//! Counts the builds of hashed kinds that are refused since some branch has no perfect hash: for random keys of one length, and for one branch.

use benches::sets::{Random, grouped};
use std::collections::BTreeSet;
use zerotrie::{ZeroTrieBuildError, ZeroTriePerfectHash};

/// Whether a build of these keys is refused since a branch has no perfect hash.
fn is_refused(keys: &BTreeSet<Vec<u8>>) -> bool {
    let pairs = keys.iter().zip(0..).map(|(key, value)| (key.as_slice(), value));
    matches!(ZeroTriePerfectHash::try_from_iter(pairs), Err(ZeroTrieBuildError::CouldNotSolvePerfectHash))
}

/// This many keys of this many random bytes.
fn keys(random: &mut Random, count: usize, len: usize) -> BTreeSet<Vec<u8>> {
    let mut keys = BTreeSet::new();
    while keys.len() < count {
        keys.insert((0..len).map(|_| random.below(256) as u8).collect());
    }
    keys
}

/// How many of these builds are refused.
fn refused(tries: usize, mut set: impl FnMut() -> BTreeSet<Vec<u8>>) -> usize {
    (0..tries).filter(|_| is_refused(&set())).count()
}

fn main() {
    let mut random = Random::new(61);
    println!("| random keys | refused, of 4 bytes | of 8 | of 16 |\n|--:|--:|--:|--:|");
    for count in [100, 200, 300, 500, 1_000, 2_000, 3_000, 10_000, 30_000, 60_000, 80_000, 100_000, 300_000, 600_000, 1_000_000] {
        let tries = (600_000 / count).clamp(4, 100);
        let cells = [4, 8, 16].map(|len| format!("{} of {tries}", refused(tries, || keys(&mut random, count, len))));
        println!("| {} | {} |", grouped(count), cells.join(" | "));
    }
    println!("\n| edges of one branch | refused, of 200 |\n|--:|--:|");
    for count in (144..=256).step_by(8) {
        println!("| {count} | {} |", refused(200, || keys(&mut random, count, 1)));
    }
}
