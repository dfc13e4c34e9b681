//! Holds what the library finds against brute force. Of bytes that are no trie, calls have to return, what follows the trie's own order has
//! to fit its listing, and searches may list accepted keys alone.

use crate::ask;
use crate::brute::{self, Asked, Bounds, Pair, Question, Row};
use crate::case::Case;
use std::collections::HashMap;
use std::iter::from_fn;
use std::ops::Bound;
use zerotrie::rstd::alloc::Global;
use zerotrie::search::{AnyAutomaton, Automaton, BeginsWith, Both, ByKind, Either, Fuzzy, KeyRange, KeysOf, Not};
use zerotrie::sets::{Keep, MergeAll, Operation, PairStream, Rule, Selection};
use zerotrie::zerotrie_core::{TrieRef, ZeroTrieWithOptions};
use zerotrie::zerotrie_sets::SortedTrie;
use zerotrie::{Pairs, by_kind, first_key_by_places};

/// How many bytes of a key are passed over.
const DEPTHS: [usize; 6] = [0, 1, 2, 3, 5, 99];
const OPERATIONS: [Operation; 6] = [
    Operation::Union(Keep::First),
    Operation::Union(Keep::Last),
    Operation::Intersection(Keep::First),
    Operation::Intersection(Keep::Last),
    Operation::Difference,
    Operation::SymmetricDifference,
];
const SELECTIONS: [Selection; 4] =
    [Selection::Union, Selection::Intersection, Selection::Difference, Selection::SymmetricDifference];
const RULES: [Rule; 7] = [Rule::First, Rule::Last, Rule::Sum, Rule::Min, Rule::Max, Rule::Equal, Rule::Refuse];

/// Look-ups, and listings in the trie's order.
pub fn look_ups(case: &Case, texts: &[Vec<u8>]) {
    let values: Vec<usize> = case.pairs.iter().map(|pair| pair.1).collect();
    case.same("the values", &ask!(case, trie => trie.values()).collect(), &values);
    let count = ask!(case, trie => trie.count());
    for depth in DEPTHS {
        let mut listing = ask!(case, trie => trie.stream());
        let found = case.listed("a listing that skips", 1, from_fn(|| listing.next().inspect(|_| listing.skip_below(depth))));
        if case.is_trie {
            case.same(format_args!("a listing that skips below {depth}"), &found, &brute::skipped(&case.pairs, depth));
        }
    }
    let mut look_ups = ask!(case, trie => trie.look_ups());
    for text in texts {
        let found = ask!(case, trie => (trie.get(text), look_ups.get(text), trie.longest_prefix(text)));
        let prefixes = case.listed("the prefixes of a text", 1, ask!(case, trie => trie.common_prefixes(text)));
        let below = case.listed("a listing by a prefix", 1, ask!(case, trie => trie.stream_prefix(text)));
        let walked = ask!(case, trie => {
            let mut cursor = trie.cursor();
            for byte in text {
                _ = cursor.step(*byte);
            }
            let value = cursor.take_value();
            let edge = |at| cursor.clone().probe(at).map(|it| (it.byte, usize::from(it.total_siblings)));
            (value, (0..256).map_while(edge).collect::<Vec<_>>())
        });
        if case.is_trie {
            case.same(format_args!("a cursor after {text:?}"), &walked, &(case.value(text), case.edges(text)));
            let wanted: Vec<_> = (0..=text.len()).filter_map(|len| Some((len, case.value(&text[..len])?))).collect();
            let value = case.value(text);
            case.same(format_args!("look-ups of {text:?}"), &found, &(value, value, wanted.last().copied()));
            case.same(format_args!("the prefixes of {text:?}"), &prefixes, &wanted);
            case.same(format_args!("a listing by the prefix {text:?}"), &below, &case.below(&case.pairs, text));
        }
    }
    case.same("whether the keys can be those of a search", &by_kind!(case.kind, keys_of::<_>(&case.bytes)), &case.is_trie);
    if case.is_trie {
        case.same("the number of pairs", &count, &values.len());
        let found = case.pairs.iter().filter_map(|(key, _)| ask!(case, trie => trie.get(key))).collect();
        case.same("the look-ups of all keys", &found, &values);
    }
}

fn keys_of<K: ZeroTrieWithOptions>(bytes: &[u8]) -> bool {
    zerotrie::zerotrie_search::KeysOf::validated::<K>(bytes).is_some()
}

/// Listings and neighbours in the order of bytes.
pub fn order(case: &Case, texts: &[Vec<u8>], bounds: Bounds) {
    let (wanted, most) = (brute::within(&case.sorted, bounds), case.bytes.len() + 1);
    let range = case.listed("a range", 1, ask!(case, trie => trie.search(KeyRange::from(bounds))));
    let found = case.listed("a sorted listing", 1, ask!(case, trie => trie.stream_sorted(bounds)));
    let reversed: Vec<Pair> = ask!(case, trie => trie.reversed(bounds)).take(most).collect();
    let ends = from_both_ends(ask!(case, trie => trie.range(bounds)), most);
    let last = ask!(case, trie => trie.last_within(bounds));
    if case.is_trie {
        case.same(format_args!("a range within {bounds:?}"), &range, &wanted);
        case.same(format_args!("a sorted listing within {bounds:?}"), &found, &wanted);
        case.same(format_args!("a reversed listing within {bounds:?}"), &reversed, &wanted.iter().rev().cloned().collect());
        case.same(format_args!("the last pair within {bounds:?}"), &last.as_ref(), &wanted.last());
        case.same(
            format_args!("a listing from both ends within {bounds:?}"),
            &ends,
            &from_both_ends(wanted.iter().cloned(), most),
        );
    }
    for depth in DEPTHS {
        let mut listing = ask!(case, trie => trie.stream_sorted(bounds));
        let passed = from_fn(|| listing.next().inspect(|_| listing.skip_below(depth)));
        let passed = case.listed("a sorted listing that skips", 1, passed);
        if case.is_trie {
            case.same(
                format_args!("a sorted listing that skips below {depth} within {bounds:?}"),
                &passed,
                &brute::skipped(&wanted, depth),
            );
        }
    }
    for key in texts {
        let to = (Bound::Unbounded, Bound::Included(&key[..]));
        let found =
            ask!(case, trie => [trie.first_from(key), trie.first_after(key), trie.last_before(key), trie.last_within(to)]);
        if case.is_trie {
            let least = case.sorted.partition_point(|pair| pair.0 < *key);
            let greatest = case.sorted.partition_point(|pair| pair.0 <= *key);
            let at = |place: Option<usize>| case.sorted.get(place?).cloned();
            let wanted = [at(Some(least)), at(Some(greatest)), at(least.checked_sub(1)), at(greatest.checked_sub(1))];
            case.same(format_args!("the first pair from {key:?} and after it, the last before it and up to it"), &found, &wanted);
        }
    }
}

/// Every third of the pairs is taken from the end.
fn from_both_ends(mut pairs: impl DoubleEndedIterator<Item = Pair>, most: usize) -> Vec<Pair> {
    (0..most).map_while(|turn| if turn % 3 < 2 { pairs.next() } else { pairs.next_back() }).collect()
}

/// What is searched for in a trie, and where.
struct Search<'a> {
    case: &'a Case,
    /// The tries of the same pairs in other kinds.
    twins: &'a [Case],
    asked: &'a Asked,
    accepts: Option<brute::Accepts<'a>>,
    bounds: Bounds<'a>,
    prefix: &'a [u8],
}

/// A search by each call for it. The other trie has the keys that the search is told of.
pub fn search(case: &Case, twins: &[Case], other: &Case, asked: &Asked, bounds: Bounds, prefix: &[u8]) {
    let has = |key: &[u8]| other.value(key).is_some();
    let keys = || ask!(other, trie => KeysOf::new(trie));
    let search = Search { case, twins, asked, accepts: asked.accepting(&has), bounds, prefix };
    match asked {
        Asked::One(one) => {
            let word = one.folded();
            search.check(|| one.automaton(&word));
            match one.automaton(&word).map(|it| it.1.0) {
                Some(AnyAutomaton::Fuzzy(it)) => search.nearest(one, ByKind(one.as_kind, it)),
                Some(AnyAutomaton::FuzzyChars(it)) => search.nearest(one, ByKind(one.as_kind, it)),
                Some(AnyAutomaton::Swaps(it)) => search.nearest(one, ByKind(one.as_kind, it)),
                Some(AnyAutomaton::SwapsChars(it)) => search.nearest(one, ByKind(one.as_kind, it)),
                _ => {}
            }
        }
        Asked::Begins(one) => {
            let word = one.folded();
            search.check(|| one.automaton(&word).map(BeginsWith));
        }
        Asked::SecondNotFirst(first, second) => {
            let (one, two) = (first.folded(), second.folded());
            search.check(|| Some(Both(Not(first.automaton(&one)?), second.automaton(&two)?)));
        }
        Asked::Either(first, second) => {
            let (one, two) = (first.folded(), second.folded());
            search.check(|| Some(Either(first.automaton(&one)?, second.automaton(&two)?)));
        }
        Asked::KeysAnd(one) if other.is_trie => {
            let word = one.folded();
            search.check(|| Some(Both(keys(), one.automaton(&word)?)));
        }
        Asked::NotKeys if other.is_trie => search.check(|| Some(Not(keys()))),
        Asked::KeysAnd(_) | Asked::NotKeys => {}
    }
}

impl Search<'_> {
    fn check<T: Automaton>(&self, automaton: impl Fn() -> Option<T>) {
        let Search { case, twins, bounds, prefix, .. } = *self;
        case.same(
            format_args!("whether there is an automaton by {:?}", self.asked),
            &automaton().is_some(),
            &self.accepts.is_some(),
        );
        let (Some(_), Some(accepts)) = (automaton(), &self.accepts) else { return };
        let automaton = || automaton().expect("there was one");
        let wanted: Vec<Pair> = case.sorted.iter().filter(|(key, _)| accepts(key)).cloned().collect();
        let found = case.listed("a search", 1, ask!(case, trie => trie.search(automaton())));
        let within = case.listed("a search within bounds", 1, ask!(case, trie => trie.search_range(bounds, automaton())));
        let below = case.listed("a search below a prefix", 1, ask!(case, trie => trie.search_prefix(prefix, automaton())));
        for (key, _) in found.iter().chain(&within).chain(&below) {
            assert!(accepts(key), "{}, {:?}: a search by {:?} lists {key:?}", case.name, case.kind, self.asked);
        }
        // behind a key that the search lists, behind one that the trie may not have, and below a prefix in upper case
        let middle = wanted.get(wanted.len() / 2).map_or(&b""[..], |(key, _)| key);
        let upper = prefix[..prefix.len().min(1)].to_ascii_uppercase();
        let after = [(&b""[..], middle), (prefix, prefix), (&upper, b"")].map(|(prefix, key)| {
            let found = ask!(case, trie => trie.search_after(prefix, key, automaton()));
            (prefix, key, case.listed("a search after a key", 1, found))
        });
        if !case.is_trie {
            return;
        }
        case.same(format_args!("a search by {:?}", self.asked), &found, &wanted);
        case.same(format_args!("a search within {bounds:?} by {:?}", self.asked), &within, &brute::within(&wanted, bounds));
        case.same(format_args!("a search below {prefix:?} by {:?}", self.asked), &below, &case.below(&wanted, prefix));
        for (prefix, key, found) in after {
            let left = brute::within(&case.below(&wanted, prefix), (Bound::Excluded(key), Bound::Unbounded));
            case.same(format_args!("a search below {prefix:?} after {key:?} by {:?}", self.asked), &found, &left);
        }
        for twin in twins {
            let found = twin.listed("a search", 1, ask!(twin, trie => trie.search(automaton())));
            twin.same(format_args!("a search by {:?}", self.asked), &found, &wanted);
        }
    }

    /// The nearest keys first, and the distance after each key of a search.
    fn nearest<T: Fuzzy>(&self, one: &Question, automaton: T) {
        let (case, edits) = (self.case, one.edits().expect("a number"));
        let mut listing = ask!(case, trie => trie.nearest(automaton));
        let found = case.listed("the nearest", edits + 1, from_fn(|| listing.next().map(|pair| (listing.distance(), pair))));
        if case.is_trie {
            let near = case.sorted.iter().filter_map(|pair| Some((one.distance(&pair.0)?, pair.clone())));
            let mut wanted: Vec<_> = near.collect();
            wanted.sort_by_key(|(far, _)| *far);
            case.same(format_args!("the nearest by {:?}", self.asked), &found, &wanted);
        }
        let mut matches = ask!(case, trie => trie.search(automaton));
        while let Some((key, _)) = matches.next() {
            let found = matches.automaton().distance(matches.state());
            case.same(format_args!("the distance of {key:?} by {:?}", self.asked), &found, &one.distance(&key));
        }
    }
}

/// Keys by their values.
pub fn reverse(case: &Case, values: &[usize]) {
    let table = ask!(case, trie => trie.keys_by_value());
    assert!(table.len() <= case.bytes.len(), "{}: more places than bytes", case.name);
    let firsts: HashMap<usize, &Vec<u8>> = case.pairs.iter().rev().map(|(key, value)| (*value, key)).collect();
    for (number, value) in values.iter().enumerate() {
        let wanted = firsts.get(value).map(|key| key.to_vec());
        let by_places = ask!(case, trie => first_key_by_places(trie, table.places().unwrap_or(&[]), *value));
        let found = [table.first_key_of(*value), by_places];
        if case.is_trie {
            case.same("the number of places", &table.len(), &case.pairs.len());
            case.same(format_args!("the first key of {value}"), &found, &[wanted.clone(), wanted.clone()]);
        }
        // a scan, of some in a large trie
        if case.pairs.len() < 100 || number % 32 == 0 {
            case.same(
                format_args!("the first key of {value} by a scan"),
                &ask!(case, trie => trie.first_key_of(*value)),
                &wanted,
            );
        }
    }
}

/// Merges, combinations and changes: of any bytes in their own orders, and of tries in that of bytes.
pub fn sets(case: &Case, other: &Case) {
    let trie = TrieRef { kind: case.kind, bytes: &case.bytes };
    let taken = SortedTrie::of(Global, &trie).expect("memory").is_some();
    case.same("whether a merge takes the trie", &taken, &case.is_trie);
    let rows = brute::rows(&[&case.pairs, &other.pairs]);
    let (one, two) = (ask!(case, trie => trie.stream()), ask!(other, trie => trie.stream()));
    merged(case, one.clone(), two.clone(), &rows);
    // the first, the rest of it after half, and the second
    let half = case.pairs.len() / 2;
    let mut rest = one.clone();
    (0..half).for_each(|_| drop(rest.next()));
    let three = brute::rows(&[&case.pairs, &case.pairs[half..], &other.pairs]);
    let mut rows = MergeAll::new([one, rest, two]);
    for (key, values) in &three {
        assert!(rows.advance(), "{}: a merge of three ends before {key:?}", case.name);
        let found: Vec<_> = (0..3).map(|it| rows.value(it)).collect();
        case.same("a row of three", &(rows.key(), &found), &(&key[..], values));
        let ends = (values.iter().find_map(|it| *it), values.iter().rev().find_map(|it| *it));
        case.same("the first and the last value of three", &(rows.first(), rows.last()), &ends);
        for (selection, rule) in SELECTIONS.into_iter().flat_map(|it| RULES.map(|rule| (it, rule))) {
            let wanted = brute::selected(values, selection, rule);
            case.same(format_args!("{selection:?} by {rule:?} of {values:?}"), &rows.selected(selection, rule), &wanted);
        }
    }
    assert!(!rows.advance(), "{}: a merge of three goes on", case.name);
    if case.is_trie && other.is_trie {
        sets_in_order(case, other);
    }
}

fn sets_in_order(case: &Case, other: &Case) {
    let rows = brute::rows(&[&case.sorted, &other.sorted]);
    let (one, two) = (ask!(case, trie => trie.stream_sorted(..)), ask!(other, trie => trie.stream_sorted(..)));
    merged(case, one.clone(), two, &rows);
    let pairs: Vec<(&[u8], usize)> = other.sorted.iter().map(|(key, value)| (&key[..], *value)).collect();
    merged(case, one, Pairs::from_sorted_slice(&pairs).expect("a trie has each key once"), &rows);
    let twice: Vec<_> = pairs.iter().flat_map(|pair| [*pair, *pair]).collect();
    case.same("whether pairs that come twice are sorted", &Pairs::from_sorted_slice(&twice).is_some(), &twice.is_empty());
    let combined = ask!(case, one => ask!(other, two => [
        one.union(two, Keep::First), one.union(two, Keep::Last), one.intersection(two, Keep::First),
        one.intersection(two, Keep::Last), one.difference(two), one.symmetric_difference(two),
    ]));
    for (found, operation) in combined.into_iter().zip(OPERATIONS) {
        case.same(format_args!("{operation:?} of two tries"), &found.collect(), &brute::combined(&rows, operation));
    }
    let changes = ask!(case, one => ask!(other, two => one.diff(two)));
    case.same("the changes of two tries", &changes.collect(), &brute::changes(&rows));
}

fn merged<S: PairStream + Clone, T: PairStream + Clone>(case: &Case, one: Pairs<S>, two: Pairs<T>, rows: &[Row]) {
    let mut merge = one.clone().merge(two.clone());
    let found = from_fn(|| merge.advance().then(|| (merge.key().to_vec(), vec![merge.first(), merge.second()])));
    case.same("the rows of a merge", &found.take(rows.len() + 1).collect(), &rows.to_vec());
    for operation in OPERATIONS {
        let found = one.clone().combine(two.clone(), operation).take(rows.len() + 1).collect();
        case.same(format_args!("{operation:?}"), &found, &brute::combined(rows, operation));
    }
    case.same("the changes", &one.diff(two).take(rows.len() + 1).collect(), &brute::changes(rows));
}
