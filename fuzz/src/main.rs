//! Compares searches, listings, merges and reverse look-ups with brute force: over chosen keys, and over random pairs and bytes.
//!
//!     fuzz ROUNDS [SEED] [FILE]     a file of more keys, one a line

mod automaton;
mod brute;
mod case;
mod checks;
mod indexes;
#[cfg(original)]
mod of_crate;
mod random;
mod seeds;

use brute::Pair;
use case::{Case, KINDS};
use random::{INNERMOST, Random, nested};
use std::ops::Bound::{Excluded, Included, Unbounded};
use zerotrie::TrieKind;

/// Builds tries of chosen keys, and makes all comparisons.
fn compare_chosen(name: &str, kind: TrieKind, keys: &[Vec<u8>], random: &mut Random) {
    let of = |kind: TrieKind, every: usize, value: &dyn Fn(usize) -> usize| {
        let keys = seeds::keys_for(kind, keys);
        let pairs: Vec<Pair> =
            keys.into_iter().zip(1..).filter(|(_, number)| number % every == 0).map(|(key, it)| (key, value(it))).collect();
        Case::built(name.to_string(), kind, &pairs).unwrap_or_else(|| panic!("{name}, {kind:?}: a build fails"))
    };
    let (case, few) = (of(kind, 1, &|it| it), of(kind, 7, &|it| it));
    let keys: Vec<Vec<u8>> = case.sorted.iter().map(|pair| pair.0.clone()).collect();
    let (typed, texts) = (seeds::typed(&keys), seeds::texts(&keys));
    checks::look_ups(&case, &texts);
    for bounds in seeds::bounds(&typed) {
        checks::order(&case, &texts, bounds);
    }
    let twins = case.twins();
    for asked in seeds::asked(kind, &keys) {
        checks::search(&case, &twins, &few, &asked, (Excluded(&typed[0]), Included(&typed[2])), &typed[1][..1]);
    }
    for (kind, every) in KINDS.into_iter().zip([1, 2, 3, 5]) {
        checks::sets(&case, &of(kind, every, &|it| if it % 4 == 0 { it } else { it + 1 }));
    }
    // values of all lengths, many of them more than once
    let values: Vec<usize> = keys
        .iter()
        .map(|_| match random.below(3) {
            0 => random.below(10 * keys.len()),
            1 => random.next() as usize >> random.below(64),
            _ => random.below(40).pow(10),
        })
        .chain([usize::MAX, 0])
        .collect();
    let sought: Vec<usize> = values.iter().flat_map(|it| [*it, it ^ 1]).collect();
    checks::reverse(&of(kind, 1, &|it| values[it - 1]), &sought);
}

/// A text, or bytes that were one before a change, or none at all.
fn bytes_for(random: &mut Random, kind: TrieKind, pairs: &[Pair]) -> Vec<u8> {
    match random.below(16) {
        0 => nested(random.below(61), random.pick(&INNERMOST)),
        1..4 => (0..random.below(30)).map(|_| random.byte()).collect(),
        _ => {
            let mut bytes = Case::built("a build".to_string(), kind, pairs).map_or(Vec::new(), |it| it.bytes);
            let times = random.below(3);
            random.damage(&mut bytes, times);
            bytes
        }
    }
}

/// Compares one string of bytes. Returns it as the other trie of the next one.
fn compare_random(random: &mut Random, name: String, before: &Case) -> Case {
    let kind = random.pick(&KINDS);
    let pairs = random.pairs(|random| random.key(kind));
    let case = Case::new(name, kind, bytes_for(random, kind, &pairs));
    let mut texts: Vec<Vec<u8>> = pairs.into_iter().map(|pair| pair.0).collect();
    texts.push(random.key(kind));
    let (from, to, prefix) = (random.text(&texts), random.text(&texts), random.text(&texts));
    let bounds = (
        random.pick(&[Unbounded, Included(&from[..]), Excluded(&from)]),
        random.pick(&[Unbounded, Included(&to[..]), Excluded(&to)]),
    );
    checks::look_ups(&case, &texts);
    checks::order(&case, &[from.clone(), to.clone()], bounds);
    let twins = case.twins();
    for _ in 0..2 {
        checks::search(&case, &twins, before, &random.asked(kind, &texts), bounds, &prefix);
    }
    checks::sets(&case, before);
    let value = random.value();
    checks::reverse(&case, &[value, case.pairs.first().map_or(0, |pair| pair.1)]);
    #[cfg(original)]
    of_crate::compare(random, &case, &texts);
    case
}

fn main() {
    let arguments: Vec<String> = std::env::args().skip(1).collect();
    let number = |at: usize, or: u64| arguments.get(at).map_or(or, |it| it.parse().expect("a number"));
    let (rounds, seed) = (number(0, 1_000_000), number(1, 1));
    let mut random = Random::new(seed);
    for (name, keys) in seeds::all((rounds as usize / 100).clamp(300, 10_000), arguments.get(2).map(String::as_str)) {
        for kind in KINDS.into_iter().filter(|it| seeds::keys_for(*it, &keys).len() > 9) {
            compare_chosen(&name, kind, &keys, &mut random);
        }
        println!("{name}: {} keys in tries of each kind, as by brute force", keys.len());
    }
    indexes::crowds();
    let mut before = Case::new("no bytes".to_string(), TrieKind::Simple, Vec::new());
    let (mut tries, mut pairs) = (0, 0);
    for round in 0..rounds {
        before = compare_random(&mut random, format!("round {round} from seed {seed}"), &before);
        (tries, pairs) = (tries + u64::from(before.is_trie), pairs + before.pairs.len());
        indexes::compare(&mut random);
    }
    println!("{rounds} strings of bytes, {tries} of them tries, with {pairs} pairs: as by brute force");
}
