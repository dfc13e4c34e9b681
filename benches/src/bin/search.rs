//! Times searches in the words of benches/data, or the lines of a file, beside a scan of the sorted keys and fst, by what it has itself or
//! by the table of an automaton, which is made once; sorted listings beside fst and a plain one; and intersections beside look-ups.

use benches::asked::Asked;
use benches::library::{self, Found, Question, Rooms};
use benches::peers::{FST, fst_of};
use benches::sets::Set;
use benches::table::{Contestants, Table, agreed, best, turned};
use benches::{Kind, by_type, kinds_of};
use fst::automaton::Str;
use fst::{Automaton as _, IntoStreamer, Streamer};
use fxhash::FxHashMap;
use std::ops::Bound;
use zerotrie::search::{Glob, KeyRange, KeysOf, Levenshtein, StartsWith, Subsequence};
use zerotrie::sets::PairStream;
use zerotrie::{Pairs, ZeroTriePerfectHash, ZeroTrieSimpleAscii};

/// How often an intersection is made in a round.
const TURNS: usize = 500;

/// What is listed in order: all keys, and some hundred and some thousand.
const RANGES: [(&str, &str); 3] = [("", ""), ("interc", "interl"), ("mm", "mp")];

const QUESTIONS: [Question; 18] = [
    Question::Prefix("inter"),
    Question::Range("interc", "interl"),
    Question::Range("mm", "mp"),
    Question::Glob("inter*al"),
    Question::Glob("s*ing"),
    Question::Glob("?a?e?"),
    Question::Glob("*ing"),
    Question::Subsequence("zzx"),
    Question::Subsequence("trie"),
    Question::Near("exampel", 1),
    Question::Near("example", 1),
    Question::Near("example", 2),
    Question::Near("example", 3),
    Question::Near("internationalization", 1),
    Question::Near("internationalization", 2),
    Question::Near("internationalization", 3),
    Question::Near("cat", 1),
    Question::Near("cat", 2),
];

fn name_of(question: &Question) -> String {
    match question {
        Question::Prefix(text) => format!("begins with {text}"),
        Question::Range(from, end) => format!("from {from} to below {end}"),
        Question::Subsequence(text) => format!("subsequence {text}"),
        Question::Glob(pattern) => format!("pattern `{pattern}`"),
        Question::Near(word, edits) => format!("distance {edits} of {word}"),
    }
}

/// The automaton of a question. Beginnings and ranges need none.
fn automaton_of(question: &Question) -> Option<Automaton> {
    match *question {
        Question::Prefix(_) | Question::Range(..) => None,
        Question::Subsequence(text) => Some(Automaton::Glob(items(text).flat_map(|item| [Item::Any, item]).chain([Item::Any]).collect())),
        Question::Glob(pattern) => Some(Automaton::Glob(items(pattern).collect())),
        Question::Near(word, edits) => Some(Automaton::Near(word.as_bytes(), edits)),
    }
}

/// A part of a pattern.
#[derive(Clone, Copy)]
enum Item {
    Any,
    One,
    Byte(u8),
}

fn items(pattern: &'static str) -> impl Iterator<Item = Item> {
    pattern.bytes().map(|byte| match byte {
        b'*' => Item::Any,
        b'?' => Item::One,
        _ => Item::Byte(byte),
    })
}

/// An automaton whose state is a set of places in a pattern, or a row of distances up to one more than the edits.
enum Automaton {
    Glob(Vec<Item>),
    Near(&'static [u8], u8),
}

#[derive(Clone, PartialEq, Eq, Hash)]
enum State {
    Places(u64),
    Row([u8; 32]),
}

impl Automaton {
    /// The places of a pattern with those that follow a `*` at once.
    fn spread(items: &[Item], mut places: u64) -> u64 {
        for (place, item) in items.iter().enumerate() {
            if matches!(item, Item::Any) && places >> place & 1 == 1 {
                places |= 1 << (place + 1);
            }
        }
        places
    }

    /// The bytes that it tells apart, and `OTHER`.
    fn letters(&self) -> Vec<u8> {
        let mut letters: Vec<u8> = match self {
            Automaton::Glob(items) => items.iter().map(|item| if let Item::Byte(byte) = item { *byte } else { OTHER }).collect(),
            Automaton::Near(word, _) => word.to_vec(),
        };
        letters.push(OTHER);
        letters.sort();
        letters.dedup();
        letters
    }

    fn start(&self) -> State {
        match self {
            Automaton::Glob(items) => State::Places(Automaton::spread(items, 1)),
            Automaton::Near(_, edits) => State::Row(std::array::from_fn(|place| (place as u8).min(edits + 1))),
        }
    }

    fn is_match(&self, state: &State) -> bool {
        match (self, state) {
            (Automaton::Glob(items), State::Places(places)) => places >> items.len() & 1 == 1,
            (Automaton::Near(word, edits), State::Row(row)) => row[word.len()] <= *edits,
            _ => false,
        }
    }

    fn can_match(&self, state: &State) -> bool {
        match (self, state) {
            (Automaton::Near(word, edits), State::Row(row)) => row[..=word.len()].iter().any(|cell| cell <= edits),
            _ => *state != State::Places(0),
        }
    }

    fn step(&self, state: &State, byte: u8) -> State {
        match (self, state) {
            (Automaton::Glob(items), State::Places(places)) => {
                let mut next = 0;
                for (place, item) in items.iter().enumerate() {
                    if places >> place & 1 == 1 {
                        next |= match item {
                            Item::Any => 1 << place,
                            Item::One => 1 << (place + 1),
                            Item::Byte(wanted) => u64::from(*wanted == byte) << (place + 1),
                        };
                    }
                }
                State::Places(Automaton::spread(items, next))
            }
            (Automaton::Near(word, edits), State::Row(row)) => {
                let mut next = [(row[0] + 1).min(edits + 1); 32];
                for (place, wanted) in word.iter().enumerate() {
                    let changed = row[place] + u8::from(*wanted != byte);
                    next[place + 1] = changed.min(row[place + 1] + 1).min(next[place] + 1).min(edits + 1);
                }
                State::Row(next)
            }
            _ => State::Places(0),
        }
    }
}

/// A byte in no pattern, which stands for all that are in none. It is the first of the letters.
const OTHER: u8 = 0;

/// An automaton as a table of all its states, for a scan and for fst: a step is one read. It begins in state 1, and from 0 nothing is accepted.
struct Dfa {
    /// The number of each byte among the letters.
    classes: [u8; 256],
    letters: usize,
    steps: Vec<u16>,
    is_match: Vec<bool>,
}

impl Dfa {
    fn of(automaton: &Automaton) -> Dfa {
        let letters = automaton.letters();
        let mut dfa = Dfa { classes: [0; 256], letters: letters.len(), steps: vec![0; letters.len()], is_match: vec![false] };
        for (letter, class) in letters.iter().zip(0..) {
            dfa.classes[usize::from(*letter)] = class;
        }
        let mut states = vec![automaton.start()];
        let mut numbers: FxHashMap<State, u16> = states.iter().cloned().zip(1..).collect();
        while let Some(state) = states.get(dfa.is_match.len() - 1).cloned() {
            dfa.is_match.push(automaton.is_match(&state));
            for letter in &letters {
                let next = automaton.step(&state, *letter);
                let number = automaton.can_match(&next).then(|| {
                    *numbers.entry(next).or_insert_with_key(|next| {
                        states.push(next.clone());
                        states.len() as u16
                    })
                });
                dfa.steps.push(number.unwrap_or(0));
            }
        }
        dfa
    }

    fn step(&self, state: usize, byte: u8) -> usize {
        self.steps[state * self.letters + usize::from(self.classes[usize::from(byte)])].into()
    }

    fn accepts(&self, key: &[u8]) -> bool {
        let end = key.iter().try_fold(1, |state, byte| Some(self.step(state, *byte)).filter(|state| *state != 0));
        end.is_some_and(|state| self.is_match[state])
    }
}

/// How many edits make a key of the word of an automaton.
fn distance(automaton: &Automaton, key: &[u8]) -> u8 {
    match (automaton, key.iter().fold(automaton.start(), |state, byte| automaton.step(&state, *byte))) {
        (Automaton::Near(word, _), State::Row(row)) => row[word.len()],
        _ => 0,
    }
}

impl fst::Automaton for Dfa {
    type State = usize;
    fn start(&self) -> usize {
        1
    }
    fn is_match(&self, state: &usize) -> bool {
        self.is_match[*state]
    }
    fn can_match(&self, state: &usize) -> bool {
        *state != 0
    }
    fn accept(&self, state: &usize, byte: u8) -> usize {
        self.step(*state, byte)
    }
}

/// The number of pairs times 2^44, and the sum of their values.
fn summed(values: impl Iterator<Item = usize>) -> usize {
    values.fold(0, |sum, value| sum + value + (1 << 44))
}

/// The sum with each value times its place, so that another order has another sum.
fn in_order(values: impl Iterator<Item = usize>) -> usize {
    summed(values.zip(1..).map(|(value, place)| value * place))
}

fn sum_of(found: Found) -> usize {
    (found.pairs << 44) + found.values
}

/// The sum by plain Rust.
fn streamed<S: PairStream>(mut pairs: Pairs<S>) -> usize {
    summed(std::iter::from_fn(|| pairs.advance().then(|| pairs.value())))
}

fn range<'p>(from: &'p str, to: &'p str) -> KeyRange<'p> {
    let to = if to.is_empty() { Bound::Unbounded } else { Bound::Excluded(to.as_bytes()) };
    KeyRange { from: Bound::Included(from.as_bytes()), to }
}

fn by_plain_rust(kind: Kind, bytes: &[u8], question: &Question) -> usize {
    by_type!(kind, zerotrie, Trie => {
        let trie = Trie::from_bytes(bytes);
        match *question {
            Question::Prefix(text) => streamed(trie.search(StartsWith(text.as_bytes()))),
            Question::Range(from, to) => streamed(trie.search(range(from, to))),
            Question::Subsequence(letters) => streamed(trie.search(Subsequence(letters.as_bytes()))),
            Question::Glob(pattern) => streamed(trie.search(Glob::new(pattern.as_bytes()).unwrap())),
            Question::Near(word, edits) => streamed(trie.search(Levenshtein::new(word.as_bytes(), edits).unwrap())),
        }
    })
}

fn nearest_by_plain_rust(kind: Kind, bytes: &[u8], word: &str, edits: u8) -> usize {
    by_type!(kind, zerotrie, Trie => in_order(Trie::from_bytes(bytes).nearest(Levenshtein::new(word.as_bytes(), edits).unwrap()).values()))
}

fn scanned(set: &Set, question: &Question, dfa: Option<&Dfa>) -> usize {
    let is_wanted = |key: &[u8]| match *question {
        Question::Prefix(text) => key.starts_with(text.as_bytes()),
        Question::Range(from, to) => from.as_bytes() <= key && key < to.as_bytes(),
        _ => dfa.is_some_and(|dfa| dfa.accepts(key)),
    };
    summed(set.pairs().filter(|(key, _)| is_wanted(key)).map(|(_, value)| value))
}

/// The sum of a search of fst.
macro_rules! fst_sum {
    ($found:expr) => {{
        let mut found = $found.into_stream();
        let mut sum = 0;
        while let Some((_, value)) = found.next() {
            sum += value as usize + (1 << 44);
        }
        sum
    }};
}

fn fst_range(map: &fst::Map, (from, to): (&str, &str)) -> usize {
    let range = map.range().ge(from);
    fst_sum!(if to.is_empty() { range } else { range.lt(to) })
}

/// A search by what fst has itself, or else by a table.
fn fst_found(map: &fst::Map, question: &Question, dfa: Option<&Dfa>) -> usize {
    match (*question, dfa) {
        (Question::Range(from, to), _) => fst_range(map, (from, to)),
        (Question::Prefix(text), _) => fst_sum!(map.search(Str::new(text).starts_with())),
        (Question::Subsequence(letters), _) => fst_sum!(map.search(fst::automaton::Subsequence::new(letters))),
        (_, Some(dfa)) => fst_sum!(map.search(dfa)),
        (_, None) => 0,
    }
}

/// The nearest keys first by fst, which has no such call: those that a search finds are measured and sorted.
fn fst_nearest(map: &fst::Map, automaton: &Automaton, dfa: &Dfa) -> usize {
    let mut found = map.search(dfa).into_stream().into_byte_vec();
    found.sort_by_cached_key(|(key, _)| distance(automaton, key));
    in_order(found.into_iter().map(|(_, value)| value as usize))
}

/// What two maps have in common.
fn fst_common(map: &fst::Map, other: &fst::Map) -> usize {
    let mut found = map.op().add(other).intersection();
    let mut sum = 0;
    while let Some((_, values)) = found.next() {
        sum += values[0].value as usize + (1 << 44);
    }
    sum
}

/// The same by a look-up of each key of the second.
fn fst_looked_up(map: &fst::Map, other: &fst::Map) -> usize {
    let mut keys = other.stream();
    let mut sum = 0;
    while let Some((key, _)) = keys.next() {
        sum += map.get(key).map_or(0, |value| value as usize + (1 << 44));
    }
    sum
}

/// The tries of a set.
fn tries_of(set: &Set) -> Vec<(Kind, Vec<u8>)> {
    let kinds = kinds_of(&set.keys).into_iter().filter(|kind| matches!(kind, Kind::Simple | Kind::Hash));
    kinds.map(|kind| (kind, library::built(kind, set.pairs()))).collect()
}

fn searches(set: &Set, rounds: usize) -> Table {
    let mut table = Table::of_shares(&format!("Microseconds of a search in {}", set.name));
    let map = fst_of(set);
    for question in &QUESTIONS {
        let automaton = automaton_of(question);
        let dfa = &automaton.as_ref().map(Dfa::of);
        for (kind, bytes) in &tries_of(set) {
            let mut rooms = Rooms::default();
            let mut contestants: Contestants<'_> = vec![
                ("here", Box::new(|| sum_of(rooms.searched(*kind, bytes, *question)))),
                ("plain Rust", Box::new(|| by_plain_rust(*kind, bytes, question))),
                (FST, Box::new(|| fst_found(&map, question, dfa.as_ref()))),
                ("a scan", Box::new(|| scanned(set, question, dfa.as_ref()))),
            ];
            let found = agreed(&mut contestants, &name_of(question)) >> 44;
            // by itself, as it goes over all keys, and so takes from the cache what the others read
            let scan = best(rounds, 1000, &mut vec![contestants.pop().unwrap()]);
            if let Some(automaton) = &automaton {
                contestants.push(("making its DFA", Box::new(|| Dfa::of(automaton).steps.len())));
            }
            let values = best(rounds, 1000, &mut contestants).into_iter().chain(scan).collect();
            table.add(format!("{}, {}: {found}", name_of(question), kind.name()), values);
        }
    }
    nearest(&mut table, set, &map, rounds);
    table
}

/// The rows of the nearest keys first.
fn nearest(table: &mut Table, set: &Set, map: &fst::Map, rounds: usize) {
    const WORD: &str = "example";
    for edits in 1..=3 {
        let automaton = Automaton::Near(WORD.as_bytes(), edits);
        let dfa = Dfa::of(&automaton);
        let row = format!("nearest, distance {edits} of {WORD}");
        for (kind, bytes) in &tries_of(set) {
            let mut rooms = Rooms::default();
            let mut contestants: Contestants<'_> = vec![
                ("here", Box::new(|| in_order(rooms.nearest(*kind, bytes, WORD, edits).iter().copied()))),
                ("plain Rust", Box::new(|| nearest_by_plain_rust(*kind, bytes, WORD, edits))),
                (FST, Box::new(|| fst_nearest(map, &automaton, &dfa))),
            ];
            let found = agreed(&mut contestants, &row) >> 44;
            table.measure(format!("{row}, {}: {found}", kind.name()), rounds, 1000, contestants);
        }
    }
}

fn sorted_listings(set: &Set, rounds: usize) -> Table {
    let mut table = Table::of_shares(&format!("Microseconds of a listing in the order of bytes in {}", set.name));
    let map = fst_of(set);
    for (from, to) in RANGES {
        for (kind, bytes) in &tries_of(set) {
            let (mut rooms, mut others) = (Rooms::default(), Rooms::default());
            let by_plain_rust = || by_type!(*kind, zerotrie, Trie => streamed(Trie::from_bytes(bytes).stream_sorted(range(from, to))));
            let mut contestants: Contestants<'_> = vec![
                ("here", Box::new(|| sum_of(rooms.sorted(*kind, bytes, from.as_bytes(), to.as_bytes())))),
                ("plain Rust", Box::new(by_plain_rust)),
                (FST, Box::new(|| fst_range(&map, (from, to)))),
            ];
            if to.is_empty() {
                contestants.push(("a plain one", Box::new(|| sum_of(others.listed(*kind, bytes, b"")))));
            }
            let row = if to.is_empty() { String::from("all") } else { format!("from {from} to below {to}") };
            let found = agreed(&mut contestants, &row) >> 44;
            table.measure(format!("{row}, {}: {found}", kind.name()), rounds, 1000, contestants);
        }
    }
    table
}

/// What two tries of plain Rust have in common, by a search of the first for the keys of the second.
fn common(kind: Kind, first: &[u8], second: &[u8]) -> usize {
    match kind {
        Kind::Simple => streamed(ZeroTrieSimpleAscii::from_bytes(first).search(KeysOf::new(ZeroTrieSimpleAscii::from_bytes(second)))),
        _ => streamed(ZeroTriePerfectHash::from_bytes(first).search(KeysOf::new(ZeroTriePerfectHash::from_bytes(second)))),
    }
}

/// The same by a look-up of each key of the first.
fn looked_up(kind: Kind, first: &[u8], second: &[u8]) -> usize {
    by_type!(kind, zerotrie, Trie => {
        let (mut pairs, other) = (Trie::from_bytes(first).stream(), Trie::from_bytes(second));
        let mut sum = 0;
        while pairs.advance() {
            sum += other.get(pairs.key()).map_or(0, |value| value + (1 << 44));
        }
        sum
    })
}

/// What all keys and every thousandth of them have in common, each searched for those of the other. C has no such search.
fn intersections(set: &Set, rounds: usize) -> Table {
    let mut table = Table::of_shares(&format!("Microseconds of an intersection of {} and a thousandth", set.name));
    let (keys, values) = set.pairs().step_by(1000).map(|(key, value)| (key.to_vec(), value)).unzip();
    let few = Set { name: String::from("a thousandth"), keys, values };
    let (map, few_map) = (fst_of(set), fst_of(&few));
    for (kind, bytes) in &tries_of(set) {
        let thousandth = &library::built(*kind, few.pairs());
        for (name, first, second) in [("all", bytes, thousandth), ("a thousandth", thousandth, bytes)] {
            let mut contestants: Contestants<'_> = vec![
                ("plain Rust", Box::new(|| common(*kind, first, second))),
                ("look-ups of the thousandth", Box::new(|| looked_up(*kind, thousandth, bytes))),
                ("fst 0.3, look-ups", Box::new(|| fst_looked_up(&map, &few_map))),
                (FST, Box::new(|| fst_common(&map, &few_map))),
            ];
            let found = agreed(&mut contestants, name) >> 44;
            // fst goes over all keys of both, so that one turn of it is enough
            let mut values = best(rounds, 1000, &mut vec![contestants.pop().unwrap()]);
            let mut others = contestants.into_iter().map(|(name, work)| (name, turned(TURNS, work))).collect();
            values.splice(0..0, best(rounds, 1000 * TURNS, &mut others));
            table.add(format!("{name} searched, {}: {found}", kind.name()), values);
        }
    }
    table
}

fn main() {
    let asked = Asked::begin();
    let (set, rounds) = (&asked.one_set(), asked.rounds);
    searches(set, rounds).print();
    sorted_listings(set, rounds).print();
    intersections(set, rounds).print();
}
