//! Times reverse look-ups in the words of benches/data, or the lines of a file, by a table beside a scan of the pairs, and the build of the table.

use benches::asked::Asked;
use benches::sets::Random;
use benches::table::{Contestants, best};
use benches::{Kind, kinds_of, library};

/// How many values a round asks for, and for how many of them it scans.
const ASKED: usize = 10_000;
const SCANNED: usize = 50;

/// The time of one item, in nanoseconds, at best of this many rounds.
fn time_of(rounds: usize, items: usize, work: impl FnMut() -> usize) -> f64 {
    let mut alone: Contestants<'_> = vec![("", Box::new(work))];
    best(rounds, items, &mut alone)[0].1
}

fn main() {
    let asked = Asked::begin();
    let (mut set, rounds) = (asked.one_set(), asked.rounds);
    let mut random = Random::new(1);
    random.shuffle(&mut set.values);
    let values: Vec<usize> = (0..ASKED).map(|_| set.values[random.below(set.values.len())]).collect();
    let longest = set.keys.iter().map(Vec::len).max().unwrap_or(0);
    let title = format!("Reverse look-ups in {}", set.name);
    println!("\n| {title} | trie, bytes | table, bytes a pair | build, ms | look-up, ns | a scan, ns |\n|---|--:|--:|--:|--:|--:|");
    for kind in kinds_of(&set.keys).into_iter().filter(|kind| matches!(kind, Kind::Simple | Kind::Hash)) {
        let bytes = library::built(kind, set.pairs());
        let (mut places, mut room) = (vec![0; set.keys.len()], vec![0; longest]);
        let count = library::reverse_places(kind, &bytes, &mut places);
        assert_eq!(count, set.keys.len(), "the table lacks a place");
        let mut found = |places: &[u32], values: &[usize]| -> usize {
            values.iter().map(|value| library::reverse_key(kind, &bytes, places, *value, &mut room)).sum()
        };
        let few = &values[..SCANNED];
        assert_eq!(found(&places, few), found(&[], few), "the keys differ");
        let look_up = time_of(rounds, ASKED, || found(&places, &values));
        let scan = time_of(rounds.min(3), SCANNED, || found(&[], few));
        let build = time_of(rounds, 1, || library::reverse_places(kind, &bytes, &mut places));
        let each = 4.0 * count as f64 / set.keys.len() as f64;
        println!("| {} | {} | {each:.1} | {:.1} | {look_up:.0} | {scan:.0} |", kind.name(), bytes.len(), build / 1e6);
    }
}
