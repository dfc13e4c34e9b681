//! The face of the plain package.

use crate::library::{Entry, Found, KINDS, Library, Move, Moved, Pair, Search, Status};
use std::collections::BTreeMap;
use std::ops::Bound;
use zerotrie::dense::{RecordError, ZeroAsciiDenseSparse2dTrieBorrowed, ZeroAsciiDenseSparse2dTrieOwned};
use zerotrie::index::{ZeroIndex, ZeroIndexBuildError};
use zerotrie::rstd::alloc::Global;
use zerotrie::search::{
    AnyAutomaton, Automaton, BeginsWith, ByKind, KeyRange, SearchBy, WordError, by_automaton, fold_by, fold_word,
};
use zerotrie::sets::{MergeAll, Rule, RuleError, Selection};
use zerotrie::zerotrie_sealed::seal_index;
use zerotrie::{
    FaultCause, SealError, TagError, TrieKind, ZeroAsciiIgnoreCaseTrie, ZeroTrie, ZeroTrieBuildError, ZeroTrieExtendedCapacity,
    ZeroTriePerfectHash, ZeroTrieSimpleAscii,
};

pub struct Plain;

/// Asks the type of a kind.
macro_rules! of_kind {
    ($kind:expr, $type:ident => $answer:expr) => {
        match $kind {
            0 => {
                type $type<S> = ZeroTrieSimpleAscii<S>;
                $answer
            }
            3 => {
                type $type<S> = ZeroTriePerfectHash<S>;
                $answer
            }
            7 => {
                type $type<S> = ZeroTrieExtendedCapacity<S>;
                $answer
            }
            _ => {
                type $type<S> = ZeroAsciiIgnoreCaseTrie<S>;
                $answer
            }
        }
    };
}

/// Asks a trie of a kind over some bytes.
macro_rules! ask {
    ($kind:expr, $bytes:expr, $trie:ident => $answer:expr) => {
        of_kind!($kind, Trie => { let $trie = Trie::<&[u8]>::from_store($bytes); $answer })
    };
}

fn status(error: ZeroTrieBuildError) -> Status {
    match error {
        ZeroTrieBuildError::NonAsciiError => 1,
        ZeroTrieBuildError::CapacityExceeded => 2,
        ZeroTrieBuildError::CouldNotSolvePerfectHash => 3,
        ZeroTrieBuildError::MixedCase => 4,
        ZeroTrieBuildError::IllegalDelimiter => 5,
        ZeroTrieBuildError::DuplicateKey => 6,
        ZeroTrieBuildError::Unsorted => 7,
        other => panic!("{other}"),
    }
}

fn fault(cause: FaultCause) -> u32 {
    match cause {
        FaultCause::NoNode => 1,
        FaultCause::NoSpans => 2,
        FaultCause::UnexpectedEnd => 3,
        FaultCause::ValueAfterValue => 4,
        FaultCause::SpanAfterSpan => 5,
        FaultCause::EmptySpan => 6,
        FaultCause::AsciiInSpan => 7,
        FaultCause::WrongTable => 8,
        FaultCause::WrongWidth => 9,
        FaultCause::WrongOffsets => 10,
    }
}

/// Lists what an automaton accepts, or what begins with such a key.
fn found<T: Automaton>(kind: u8, bytes: &[u8], prefix: &[u8], automaton: T, beginnings: bool) -> Found {
    ask!(kind, bytes, trie => if beginnings {
        trie.search_prefix(prefix, BeginsWith(automaton)).collect()
    } else {
        trie.search_prefix(prefix, automaton).collect()
    })
}

fn tagged(bytes: &[u8]) -> Result<(u8, Vec<u8>), Status> {
    for kind in KINDS {
        match of_kind!(kind, Trie => Trie::try_from_tagged_bytes(bytes).map(|trie| trie.as_bytes().to_vec())) {
            Ok(bytes) => return Ok((kind, bytes)),
            Err(TagError::Empty) => return Err(13),
            Err(TagError::InvalidTag) => {}
        }
    }
    Err(14)
}

impl Library for Plain {
    fn build(&self, kind: u8, pairs: &[Pair]) -> Result<Vec<u8>, Status> {
        let pairs = pairs.iter().copied();
        of_kind!(kind, Trie => Trie::try_from_iter(pairs).map(|trie| trie.into_store())).map_err(status)
    }

    fn build_sorted(&self, kind: u8, pairs: &[Pair]) -> Result<Vec<u8>, Status> {
        of_kind!(kind, Trie => Trie::try_from_sorted_slice(pairs).map(|trie| trie.into_store())).map_err(status)
    }

    fn encoded_len(&self, kind: u8, pairs: &[Pair]) -> Result<usize, Status> {
        of_kind!(kind, Trie => Trie::encoded_len(pairs)).map_err(status)
    }

    fn why_refused(&self, kind: u8, pairs: &[Pair]) -> Option<(Status, usize, usize)> {
        let why = of_kind!(kind, Trie => Trie::<Vec<u8>>::why_iter_refused(pairs));
        why.map(|why| (status(why.error), why.first, why.second))
    }

    fn get(&self, kind: u8, bytes: &[u8], key: &[u8]) -> Option<usize> {
        ask!(kind, bytes, trie => {
            let found = trie.get(key);
            // of malformed bytes both return, and not the same
            assert!(!trie.is_well_formed() || trie.look_ups().get(key) == found);
            found
        })
    }

    fn get_many(&self, kind: u8, bytes: &[u8], keys: &[Vec<u8>], missing: usize) -> Vec<usize> {
        ask!(kind, bytes, trie => {
            let mut look_ups = trie.look_ups();
            keys.iter().map(|key| look_ups.get(key).unwrap_or(missing)).collect()
        })
    }

    fn longest_prefix(&self, kind: u8, bytes: &[u8], text: &[u8]) -> Option<(usize, usize)> {
        ask!(kind, bytes, trie => trie.longest_prefix(text))
    }

    fn longest_prefix_at(&self, kind: u8, bytes: &[u8], text: &[u8], delimiters: &[u8]) -> Option<(usize, usize)> {
        ask!(kind, bytes, trie => trie.longest_prefix_at(text, delimiters))
    }

    fn common_prefixes(&self, kind: u8, bytes: &[u8], text: &[u8]) -> Vec<(usize, usize)> {
        ask!(kind, bytes, trie => trie.common_prefixes(text).collect())
    }

    fn is_well_formed(&self, kind: u8, bytes: &[u8]) -> bool {
        ask!(kind, bytes, trie => trie.is_well_formed())
    }

    fn first_fault(&self, kind: u8, bytes: &[u8]) -> Option<(u32, usize)> {
        ask!(kind, bytes, trie => trie.first_fault()).map(|it| (fault(it.cause), it.place))
    }

    fn list(&self, kind: u8, bytes: &[u8], prefix: &[u8]) -> Found {
        ask!(kind, bytes, trie => trie.stream_prefix(prefix).collect())
    }

    fn sorted(&self, kind: u8, bytes: &[u8], from: Bound<&[u8]>, to: Bound<&[u8]>) -> Found {
        ask!(kind, bytes, trie => trie.stream_sorted((from, to)).take(bytes.len() + 1).collect())
    }

    fn last_within(&self, kind: u8, bytes: &[u8], from: Bound<&[u8]>, to: Bound<&[u8]>) -> Option<(Vec<u8>, usize)> {
        ask!(kind, bytes, trie => trie.last_within((from, to)))
    }

    fn first_key_of(&self, kind: u8, bytes: &[u8], value: usize) -> Option<Vec<u8>> {
        ask!(kind, bytes, trie => {
            let found = trie.first_key_of(value);
            // a table has the pairs of a valid trie
            assert!(!trie.is_well_formed() || trie.keys_by_value().first_key_of(value) == found);
            found
        })
    }

    fn combine(&self, selection: Selection, rule: Rule, tries: &[(u8, &[u8])], kind: u8) -> Result<Vec<u8>, Status> {
        let is_valid = |(kind, bytes): &(u8, &[u8])| ask!(*kind, *bytes, trie => trie.is_well_formed());
        if !tries.iter().all(is_valid) {
            return Err(26);
        }
        let mut rows = MergeAll::new(
            tries
                .iter()
                .map(|(kind, bytes)| of_kind!(*kind, Trie => Trie::<[u8]>::from_bytes(bytes).stream_sorted(..))),
        );
        let mut taken = Vec::new();
        while rows.advance() {
            let value = rows.selected(selection, rule).map_err(|error| match error {
                RuleError::SeveralValues | RuleError::DifferentValues => 6u32,
                RuleError::SumTooLarge => 25,
            })?;
            taken.extend(value.map(|value| (rows.key().to_vec(), value)));
        }
        of_kind!(kind, Trie => Trie::try_from_sorted_slice(&taken).map(|trie| trie.into_store())).map_err(status)
    }

    fn search(&self, kind: u8, bytes: &[u8], prefix: &[u8], search: Search, beginnings: bool) -> Result<Found, Status> {
        let of = TrieKind::of_tag(kind).expect("the number of a kind");
        let (by, word) = match search {
            Search::Range(from, to) => {
                let folded = |bound: Bound<&[u8]>| {
                    bound.map(|key| {
                        let mut key = key.to_vec();
                        fold_by(of, &mut key);
                        key
                    })
                };
                let (from, to) = (folded(from), folded(to));
                let range = KeyRange {
                    from: from.as_ref().map(Vec::as_slice),
                    to: to.as_ref().map(Vec::as_slice),
                };
                return Ok(found(kind, bytes, prefix, ByKind(of, range), beginnings));
            }
            Search::Glob(pattern) => (SearchBy::Glob, pattern),
            Search::Subsequence(letters) => (SearchBy::Subsequence, letters),
            Search::Edits(word, edits) => (SearchBy::Fuzzy(edits.into()), word),
            Search::CharEdits(word, edits) => (SearchBy::FuzzyChars(edits.into()), word),
        };
        let mut word = word.to_vec();
        fold_word(of, by, &mut word);
        let any = AnyAutomaton::by_kind(of, by, &word).map_err(|error| match error {
            WordError::TooLong => 22,
            WordError::Malformed => 21u32,
            WordError::TooManyEdits => 27,
        })?;
        Ok(by_automaton!(any, automaton => found(kind, bytes, prefix, ByKind(of, automaton), beginnings)))
    }

    fn walk(&self, kind: u8, bytes: &[u8], prefix: &[u8], moves: &[Move]) -> Vec<Moved> {
        // the functions for C have one cursor for all kinds
        match kind {
            3 | 7 => {
                let mut cursor = match kind {
                    3 => ZeroTriePerfectHash::from_store(bytes).into_zerotrie().into_cursor(),
                    _ => ZeroTrieExtendedCapacity::from_store(bytes)
                        .into_zerotrie()
                        .into_cursor(),
                };
                for byte in prefix {
                    cursor.step(*byte);
                }
                let moved = |it: &Move| match *it {
                    Move::Step(byte) => Moved::Edge(cursor.step(byte)),
                    Move::Probe(index) => {
                        Moved::Sibling(cursor.probe(index).map(|edge| (edge.byte, edge.total_siblings)))
                    }
                    Move::Take => Moved::Value(cursor.take_value()),
                };
                moves.iter().map(moved).collect()
            }
            8 => {
                let mut cursor = ZeroAsciiIgnoreCaseTrie::from_store(bytes).into_cursor();
                for byte in prefix {
                    cursor.step(*byte);
                }
                let moved = |it: &Move| match *it {
                    Move::Step(byte) => Moved::Edge(cursor.step(byte)),
                    Move::Probe(index) => Moved::Sibling(
                        cursor
                            .probe(index)
                            .map(|edge| (edge.byte, u16::from(edge.total_siblings))),
                    ),
                    Move::Take => Moved::Value(cursor.take_value()),
                };
                moves.iter().map(moved).collect()
            }
            _ => {
                let mut cursor = ZeroTrieSimpleAscii::from_store(bytes).into_cursor();
                for byte in prefix {
                    cursor.step(*byte);
                }
                let moved = |it: &Move| match *it {
                    Move::Step(byte) => {
                        cursor.step(byte);
                        Moved::Edge(None)
                    }
                    Move::Probe(index) => Moved::Sibling(
                        cursor
                            .probe(index)
                            .map(|edge| (edge.byte, u16::from(edge.total_siblings))),
                    ),
                    Move::Take => Moved::Value(cursor.take_value()),
                };
                moves.iter().map(moved).collect()
            }
        }
    }

    fn auto_kind(&self, pairs: &[Pair]) -> u8 {
        let trie = ZeroTrie::try_from_iter(pairs.iter().copied()).unwrap();
        if trie.kind() == ZeroTrieSimpleAscii::from_store(b"").kind() {
            0
        } else {
            3
        }
    }

    fn tagged(&self, kind: u8, bytes: &[u8]) -> Vec<u8> {
        ask!(kind, bytes, trie => trie.to_tagged_bytes())
    }

    fn tagged_kind(&self, bytes: &[u8]) -> Result<u8, Status> {
        tagged(bytes).map(|(kind, _)| kind)
    }

    fn seal(&self, kind: u8, bytes: &[u8]) -> Vec<u8> {
        ask!(kind, bytes, trie => trie.seal())
    }

    fn open(&self, file: &[u8]) -> Result<(u8, Vec<u8>), Status> {
        for kind in KINDS {
            match of_kind!(kind, Trie => Trie::open(file).map(|trie| trie.as_bytes().to_vec())) {
                Ok(bytes) => return Ok((kind, bytes)),
                // that of C reads tagged bytes too
                Err(SealError::NoMagic) => return tagged(file),
                Err(SealError::UnknownVersion(_)) => return Err(19),
                Err(_) => {}
            }
        }
        Err(18)
    }

    fn dense_build(&self, entries: &[Entry], delimiter: u8) -> Result<Vec<u8>, Status> {
        let mut rows: BTreeMap<&str, BTreeMap<&str, usize>> = BTreeMap::new();
        for (prefix, suffix, value) in entries {
            rows.entry(prefix).or_default().insert(suffix, *value);
        }
        ZeroAsciiDenseSparse2dTrieOwned::try_from_btree_map_str(&rows, delimiter)
            .map(|table| table.as_borrowed().to_record_bytes())
            .map_err(status)
    }

    fn dense_get(&self, record: &[u8], prefix: &[u8], suffix: &[u8]) -> Result<usize, Status> {
        match ZeroAsciiDenseSparse2dTrieBorrowed::try_from_record_bytes(record) {
            Ok(table) => table.get_bytes(prefix, suffix).ok_or(15),
            Err(RecordError::Truncated) => Err(16),
            Err(RecordError::TrailingBytes) => Err(17),
        }
    }

    fn index_build(&self, seed: u64, pairs: &[Pair]) -> Result<Vec<u8>, Status> {
        ZeroIndex::try_from_seed(seed, pairs)
            .map(|index| index.into_store())
            .map_err(|error| match error {
                ZeroIndexBuildError::DuplicateKey => 6,
                ZeroIndexBuildError::Crowded => 23,
                other => panic!("{other}"),
            })
    }

    fn index_get(&self, bytes: &[u8], key: &[u8]) -> Option<usize> {
        ZeroIndex::from_store(bytes).get(key)
    }

    fn index_get_many(&self, bytes: &[u8], keys: &[Vec<u8>], missing: usize) -> Vec<usize> {
        let index = ZeroIndex::from_store(bytes);
        let opened = index.opened();
        keys.iter().map(|key| opened.get(key).unwrap_or(missing)).collect()
    }

    fn index_is_valid(&self, bytes: &[u8]) -> bool {
        ZeroIndex::from_store(bytes).is_well_formed()
    }

    // ZeroIndex::seal seals as a whole
    fn index_seal(&self, bytes: &[u8]) -> Vec<u8> {
        seal_index(Global, bytes).expect("memory").into_inner()
    }

    fn index_open(&self, file: &[u8]) -> Result<Vec<u8>, Status> {
        ZeroIndex::open(file).map(|index| index.as_bytes().to_vec()).map_err(|error| match error {
            SealError::UnknownVersion(_) => 19,
            _ => 18,
        })
    }
}
