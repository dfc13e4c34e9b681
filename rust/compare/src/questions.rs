//! What is asked: rounds of questions about random pairs, the bytes of their tries, and damaged bytes.

use crate::library::{DUPLICATE_KEY, Entry, KINDS, Library, Move, Pair, Search, Status};
use std::collections::BTreeMap;
use std::fmt::Debug;
use std::ops::Bound;
use zerotrie::sets::{Rule, Selection};

/// Which values there are.
#[derive(Clone, Copy, PartialEq, Debug)]
pub enum Width {
    /// All that a `usize` has.
    Whole,
    /// Such that they and sums of a few fit into 32 bits. Of damaged bytes, which may have others, nothing is said.
    Narrow,
}

/// Numbers that look random.
pub struct Random(u64, Width);

impl Random {
    pub fn new(seed: u64, width: Width) -> Self {
        Random(seed.wrapping_mul(0x9e37_79b9_7f4a_7c15) | 1, width)
    }

    fn next(&mut self) -> u64 {
        self.0 ^= self.0 << 13;
        self.0 ^= self.0 >> 7;
        self.0 ^= self.0 << 17;
        self.0
    }

    fn below(&mut self, n: usize) -> usize {
        ((self.next() >> 11) % n as u64) as usize
    }

    fn one<T: Copy>(&mut self, of: &[T]) -> T {
        of[self.below(of.len())]
    }

    fn bytes(&mut self, letters: &[u8], longest: usize) -> Vec<u8> {
        let len = self.below(longest + 1);
        (0..len)
            .map(|_| {
                if letters.is_empty() {
                    self.next() as u8
                } else {
                    self.one(letters)
                }
            })
            .collect()
    }

    /// A text, mostly of ASCII.
    fn text(&mut self) -> String {
        let len = self.below(4);
        (0..len)
            .map(|_| self.one(&['a', 'b', 'c', 'd', 'e', 'f', 'B', '-', 'é']))
            .collect()
    }

    /// The entries of a dense table.
    fn table(&mut self) -> BTreeMap<(String, String), usize> {
        let prefixes: Vec<_> = (0..self.below(6)).map(|_| self.text()).collect();
        let suffixes: Vec<_> = (0..1 + self.below(9)).map(|_| self.text()).collect();
        let mut table = BTreeMap::new();
        for prefix in prefixes {
            for suffix in &suffixes {
                if self.below(2) == 0 {
                    table.insert((prefix.clone(), suffix.clone()), self.value());
                }
            }
        }
        // most tables can be built
        if self.below(4) > 0 {
            table.retain(|key, _| {
                [&key.0, &key.1]
                    .iter()
                    .all(|text| text.bytes().all(|it| it != b'-' && it < 128))
            });
        }
        table
    }

    fn value(&mut self) -> usize {
        let (large, greatest) = match self.1 {
            Width::Whole => (usize::MAX >> 24, usize::MAX),
            Width::Narrow => (1 << 28, 1 << 28),
        };
        let most = self.one(&[16, 3000, 1 << 20, large]);
        if self.below(20) == 0 {
            greatest
        } else {
            self.below(most)
        }
    }
}

/// The pairs and the bytes of a round, and what is asked about them.
#[derive(Debug)]
pub struct Round {
    kind: u8,
    pairs: Vec<(Vec<u8>, usize)>,
    damage: Vec<(usize, u8)>,
    bytes: Vec<u8>,
    keys: Vec<Vec<u8>>,
    moves: Vec<Move>,
    edits: u8,
    seed: u64,
    missing: usize,
    width: Width,
    table: BTreeMap<(String, String), usize>,
    delimiter: u8,
}

const LETTERS: [&[u8]; 7] = [
    b"ab",
    b"abcdefgh",
    b"abcAB",
    b"\x80\xc3\xa9a",
    b"abcdefghijklmnopqrstuvwxyz0123456789-",
    b"",
    b"a*?[]-",
];

impl Round {
    pub fn new(random: &mut Random) -> Self {
        let letters = random.one(&LETTERS);
        let (most, longest) = (random.one(&[3, 12, 12, 60, 400]), random.one(&[2, 8, 8, 40]));
        let count = random.below(most);
        let mut pairs: Vec<_> = (0..count)
            .map(|_| (random.bytes(letters, longest), random.value()))
            .collect();
        // most rounds have distinct keys, so that their builds succeed
        if random.below(8) > 0 {
            pairs.sort();
            pairs.dedup_by(|a, b| a.0 == b.0);
        }
        let mut keys: Vec<_> = (0..6).map(|_| random.bytes(letters, longest)).collect();
        keys.extend((0..6.min(pairs.len())).map(|_| pairs[random.below(pairs.len())].0.clone()));
        Round {
            kind: random.one(&KINDS),
            damage: (0..random.below(4))
                .map(|_| (random.below(1 << 16), random.next() as u8))
                .collect(),
            bytes: random.bytes(&[], 60),
            moves: (0..12)
                .map(|_| match random.below(8) {
                    0 => Move::Take,
                    1 | 2 => Move::Probe(random.below(3)),
                    _ if letters.is_empty() => Move::Step(random.next() as u8),
                    _ => Move::Step(random.one(letters)),
                })
                .collect(),
            edits: random.below(3) as u8,
            seed: random.next(),
            missing: random.value(),
            width: random.1,
            table: random.table(),
            delimiter: random.one(b"-----/\x80"),
            pairs,
            keys,
        }
    }

    /// The number of the round, as far as each `usize` has it.
    fn number(&self) -> usize {
        self.seed as u32 as usize
    }

    /// The bytes with some of them changed.
    fn damaged(&self, bytes: &[u8]) -> Vec<u8> {
        let mut damaged = bytes.to_vec();
        for (at, byte) in &self.damage {
            let len = damaged.len();
            if len > 0 {
                damaged[at % len] = *byte;
            }
        }
        damaged
    }

    /// Asks a library everything. Each answer is a line.
    pub fn ask(&self, library: &impl Library) -> Vec<String> {
        let mut answers = Answers { said: true, lines: Vec::new() };
        let pairs: Vec<(&[u8], usize)> = self.pairs.iter().map(|(key, value)| (key.as_slice(), *value)).collect();
        let built = library.build(self.kind, &pairs);
        answers.add("build", &built);
        answers.add("build_sorted", library.build_sorted(self.kind, &pairs));
        answers.add("encoded_len", library.encoded_len(self.kind, &pairs));
        let why = library.why_refused(self.kind, &pairs);
        answers.add("why_refused", why.map(|why| why_shown(why, &pairs)));
        if built.is_ok() {
            answers.add("auto_kind", library.auto_kind(&pairs));
        }
        let trie = built.unwrap_or_default();
        self.ask_trie(library, &trie, &mut answers);
        self.ask_index(library, &pairs, &mut answers);
        self.ask_table(library, &mut answers);
        answers.said = self.width == Width::Whole;
        self.ask_trie(library, &self.damaged(&trie), &mut answers);
        self.ask_trie(library, &self.bytes, &mut answers);
        self.ask_damaged_table(library, &mut answers);
        answers.lines
    }

    fn ask_trie(&self, library: &impl Library, bytes: &[u8], answers: &mut Answers) {
        answers.add("is_well_formed", library.is_well_formed(self.kind, bytes));
        answers.add("first_fault", library.first_fault(self.kind, bytes));
        answers.add("walk", library.walk(self.kind, bytes, b"", &self.moves));
        for key in &self.keys {
            let prefix = &key[..key.len() / 2];
            answers.add("walk", library.walk(self.kind, bytes, prefix, &self.moves[..3]));
        }
        // look-ups that start where the last one ended answer malformed bytes by what came before
        if library.is_well_formed(self.kind, bytes) {
            answers.add("get_many", library.get_many(self.kind, bytes, &self.keys, self.missing));
        }
        for key in &self.keys {
            answers.add("get", library.get(self.kind, bytes, key));
            answers.add("longest_prefix", library.longest_prefix(self.kind, bytes, key));
            answers.add(
                "longest_prefix_at",
                library.longest_prefix_at(self.kind, bytes, key, b"-b"),
            );
            answers.add("common_prefixes", library.common_prefixes(self.kind, bytes, key));
        }
        let (one, two) = (self.keys[0].as_slice(), self.keys[1].as_slice());
        answers.add("list", library.list(self.kind, bytes, b""));
        answers.add("list", library.list(self.kind, bytes, &one[..one.len() / 2]));
        answers.add(
            "sorted",
            library.sorted(self.kind, bytes, Bound::Unbounded, Bound::Unbounded),
        );
        answers.add(
            "sorted",
            library.sorted(self.kind, bytes, Bound::Excluded(one), Bound::Included(two)),
        );
        answers.add(
            "last_within",
            library.last_within(self.kind, bytes, Bound::Included(two), Bound::Excluded(one)),
        );
        answers.add(
            "last_within",
            library.last_within(self.kind, bytes, Bound::Unbounded, Bound::Included(two)),
        );
        for value in [self.number() % 16, self.pairs.first().map_or(0, |pair| pair.1)] {
            answers.add("first_key_of", library.first_key_of(self.kind, bytes, value));
        }
        self.ask_sets(library, bytes, answers);
        let searches = [
            Search::Range(Bound::Included(one), Bound::Excluded(two)),
            Search::Glob(one),
            Search::Subsequence(two),
            Search::Edits(one, self.edits),
            Search::CharEdits(two, self.edits),
        ];
        let by = searches[self.number() % searches.len()];
        answers.add("search", library.search(self.kind, bytes, b"", by, self.seed & 64 == 0));
        answers.add(
            "search",
            library.search(self.kind, bytes, &one[..one.len() / 2], by, self.seed & 128 == 0),
        );
        answers.add("tagged_kind", library.tagged_kind(bytes));
        let tagged = library.tagged(self.kind, bytes);
        answers.add("tagged_kind", library.tagged_kind(&tagged));
        answers.add("tagged", tagged);
        let mut file = library.seal(self.kind, bytes);
        answers.add("open", library.open(&file));
        let at = self.number() % file.len();
        file[at] ^= 1 << (self.seed >> 61);
        answers.add("open", library.open(&file));
        answers.add("seal", file);
    }

    /// Asks for a set operation on some bytes and the tries of the keys that are asked for.
    fn ask_sets(&self, library: &impl Library, bytes: &[u8], answers: &mut Answers) {
        let mut keys: Vec<Pair> = self.keys.iter().map(|key| (key.as_slice(), key.len())).collect();
        keys.sort();
        keys.dedup();
        let some = library.build_sorted(3, &keys).expect("any bytes");
        let one = library.build_sorted(7, &keys[..1]).expect("any bytes");
        let tries = [(self.kind, bytes), (3, &some), (7, &one)];
        let selections = [
            Selection::Union,
            Selection::Intersection,
            Selection::Difference,
            Selection::SymmetricDifference,
        ];
        let rules = [Rule::First, Rule::Last, Rule::Sum, Rule::Min, Rule::Max, Rule::Equal, Rule::Refuse];
        let selection = selections[self.number() >> 8 & 3];
        let rule = rules[(self.number() >> 16) % rules.len()];
        let count = (self.seed >> 32 & 3) as usize;
        let kind = KINDS[(self.seed >> 40 & 3) as usize];
        answers.add("combine", library.combine(selection, rule, &tries[..count], kind));
    }

    fn entries(&self) -> Vec<Entry<'_>> {
        let entries = self.table.iter();
        entries.map(|((prefix, suffix), value)| (prefix.as_str(), suffix.as_str(), *value)).collect()
    }

    fn ask_table(&self, library: &impl Library, answers: &mut Answers) {
        let built = library.dense_build(&self.entries(), self.delimiter);
        answers.add("dense_build", &built);
        let record = built.unwrap_or_default();
        let longer = [record.as_slice(), b"-"].concat();
        for bytes in [&record, &longer, &record[..record.len() / 2]] {
            self.ask_record(library, bytes, answers);
        }
    }

    fn ask_damaged_table(&self, library: &impl Library, answers: &mut Answers) {
        let record = library.dense_build(&self.entries(), self.delimiter).unwrap_or_default();
        self.ask_record(library, &self.damaged(&record), answers);
        self.ask_record(library, &self.bytes, answers);
    }

    fn ask_record(&self, library: &impl Library, bytes: &[u8], answers: &mut Answers) {
        for (prefix, suffix, _) in self.entries() {
            let (prefix, suffix) = (prefix.as_bytes(), suffix.as_bytes());
            answers.add("dense_get", library.dense_get(bytes, prefix, suffix));
            answers.add("dense_get", library.dense_get(bytes, suffix, prefix));
        }
        answers.add("dense_get", library.dense_get(bytes, &self.keys[0], &self.keys[1]));
    }

    fn ask_index(&self, library: &impl Library, pairs: &[(&[u8], usize)], answers: &mut Answers) {
        let built = library.index_build(self.seed, pairs);
        answers.add("index_build", &built);
        let index = built.unwrap_or_default();
        answers.add("index_is_valid", library.index_is_valid(&index));
        answers.add("index_is_valid", library.index_is_valid(&self.bytes));
        for key in &self.keys {
            answers.add("index_get", library.index_get(&index, key));
            answers.add("index_get", library.index_get(&self.bytes, key));
        }
        answers.add("index_get_many", library.index_get_many(&index, &self.keys, self.missing));
        answers.add("index_get_many", library.index_get_many(&self.bytes, &self.keys, self.missing));
        let mut file = library.index_seal(&index);
        answers.add("index_open", library.index_open(&file));
        let at = self.number() % file.len();
        file[at] ^= 1 << (self.seed >> 61);
        answers.add("index_open", library.index_open(&file));
        answers.add("index_open", library.index_open(&self.bytes));
        answers.add("index_seal", file);
    }
}

/// Which keys show an error. If a key comes more than twice any two of its places do: they follow from the order in which a sort
/// leaves equal keys.
fn why_shown((status, first, second): (Status, usize, usize), pairs: &[Pair]) -> (Status, Option<(usize, usize)>) {
    if status == DUPLICATE_KEY {
        assert!(first < second && pairs[first].0 == pairs[second].0);
        return (status, None);
    }
    (status, Some((first, second)))
}

struct Answers {
    /// Whether the next answers are kept: each is asked for.
    said: bool,
    lines: Vec<String>,
}

impl Answers {
    fn add(&mut self, question: &str, answer: impl Debug) {
        let line = format!("{question}: {answer:?}");
        if self.said {
            self.lines.push(line);
        }
    }
}
