// Made from crates/zerotrie_queries/src/listing/listed.rt by rust/make: edit that.
//! Which pairs are listed: the choice, made once, and returned as a listing.

use crate::zerotrie_queries::filtered::next_accepted;
use crate::zerotrie_queries::first_pairs::FirstPairs;
use crate::zerotrie_queries::folding::FoldedWords;
use crate::zerotrie_queries::found::Found;
use crate::zerotrie_queries::kept::{Conditions, conditions};
use crate::zerotrie_queries::listing::greatest::HeldPairs;
use crate::zerotrie_queries::near::Near;
use crate::zerotrie_queries::question::{Choice, ListQuery, Order};
use crate::rstd::alloc::{AllocError, Global};
use crate::rstd::ops::Bound;
use crate::zerotrie_core::{Trie, TrieKind, TrieRef, ZeroTrieStream};
use crate::zerotrie_search::{
    AnyAutomaton, Automaton, BeginsWith, ByKind, Fuzzy, Glob, GlobChars, KeyRange, Levenshtein,
    LevenshteinChars, Osa, OsaChars, Search, StartsWith, Subsequence, TrieListing, ZeroTrieNearest,
    ZeroTrieSearch,
};

/// The pairs that a word finds, in the order of bytes.
type WordPairs<'t, 'q, W> = ZeroTrieSearch<'t, 'q, ByKind<Found<W>>>;

/// The pairs that edits of a word find, the nearest first.
type NearPairs<'t, W> = ZeroTrieNearest<'t, ByKind<Near<W>>>;

/// The pairs with a prefix in the order of the trie, those of which the conditions of a choice hold, those
/// that a word finds, or some that are held.
pub(in crate::zerotrie_queries) enum ListedPairs<'t, 'q> {
    Plain(ZeroTrieStream<'t>),
    Kept(ZeroTrieSearch<'t, 'q, Conditions<'q>>),
    Prefix(WordPairs<'t, 'q, StartsWith<'q>>),
    Range(WordPairs<'t, 'q, KeyRange<'q>>),
    Glob(WordPairs<'t, 'q, Glob<'q>>),
    GlobChars(WordPairs<'t, 'q, GlobChars<'q>>),
    Subsequence(WordPairs<'t, 'q, Subsequence<'q>>),
    Fuzzy(WordPairs<'t, 'q, Levenshtein>),
    FuzzyChars(WordPairs<'t, 'q, LevenshteinChars>),
    Swaps(WordPairs<'t, 'q, Osa>),
    SwapsChars(WordPairs<'t, 'q, OsaChars>),
    NearFuzzy(NearPairs<'t, Levenshtein>),
    NearFuzzyChars(NearPairs<'t, LevenshteinChars>),
    NearSwaps(NearPairs<'t, Osa>),
    NearSwapsChars(NearPairs<'t, OsaChars>),
    Held(HeldPairs),
}

/// Evaluates an expression with the listing that there is, under a name.
macro_rules! by_pairs {
    ($any:expr, $pairs:ident => $result:expr) => {
        match $any {
            ListedPairs::Plain($pairs) => $result,
            ListedPairs::Kept($pairs) => $result,
            ListedPairs::Prefix($pairs) => $result,
            ListedPairs::Range($pairs) => $result,
            ListedPairs::Glob($pairs) => $result,
            ListedPairs::GlobChars($pairs) => $result,
            ListedPairs::Subsequence($pairs) => $result,
            ListedPairs::Fuzzy($pairs) => $result,
            ListedPairs::FuzzyChars($pairs) => $result,
            ListedPairs::Swaps($pairs) => $result,
            ListedPairs::SwapsChars($pairs) => $result,
            ListedPairs::NearFuzzy($pairs) => $result,
            ListedPairs::NearFuzzyChars($pairs) => $result,
            ListedPairs::NearSwaps($pairs) => $result,
            ListedPairs::NearSwapsChars($pairs) => $result,
            ListedPairs::Held($pairs) => $result,
        }
    };
}

impl<'t, 'q> TrieListing for ListedPairs<'t, 'q> {
    fn advance(&mut self) -> Result<bool, AllocError> {
        by_pairs!(self, pairs => TrieListing::advance(pairs))
    }

    fn key(&self) -> &[u8] {
        by_pairs!(self, pairs => pairs.key())
    }

    fn value(&self) -> usize {
        by_pairs!(self, pairs => pairs.value())
    }
}

/// The pairs that are chosen: of those that a word finds, those of which the other conditions hold, or all
/// without any. It reads the others, too.
pub(in crate::zerotrie_queries) struct ChosenPairs<'t, 'q> {
    pub(in crate::zerotrie_queries) pairs: ListedPairs<'t, 'q>,
    pub(in crate::zerotrie_queries) condition: Option<Conditions<'q>>,
}

impl<'t, 'q> TrieListing for ChosenPairs<'t, 'q> {
    fn advance(&mut self) -> Result<bool, AllocError> {
        next_accepted(&mut self.pairs, &self.condition)
    }

    fn key(&self) -> &[u8] {
        self.pairs.key()
    }

    fn value(&self) -> usize {
        self.pairs.value()
    }
}

/// Lists the pairs between two bounds that the word of a choice finds. `word` finds what it does.
fn by_word<'t, 'q, W: Automaton>(
    alloc: Global,
    trie: &'t TrieRef<'_>,
    choice: Choice<'q>,
    part: KeyRange<'q>,
    word: W,
) -> Result<WordPairs<'t, 'q, W>, AllocError> {
    let found = Found {
        word: BeginsWith(word),
        begins: choice.begins(),
    };
    trie.search_range(alloc, part.from, part.to, ByKind(trie.kind, found))
}

/// Returns the automaton of the word of a choice, as a kind compares keys. Without a word it accepts all
/// keys, and with a malformed one none.
fn automaton_of<'q>(kind: TrieKind, choice: Choice<'q>) -> AnyAutomaton<'q> {
    let Some(sought) = choice.sought else {
        return AnyAutomaton::Prefix(StartsWith(b""));
    };
    match sought.automaton(kind) {
        Some(any) => any,
        None => AnyAutomaton::Range(KeyRange {
            from: Bound::Excluded(b""),
            to: Bound::Excluded(b""),
        }),
    }
}

/// Lists the pairs between two bounds that the word of a choice finds.
fn found<'t, 'q>(
    alloc: Global,
    trie: &'t TrieRef<'_>,
    choice: Choice<'q>,
    part: KeyRange<'q>,
) -> Result<ListedPairs<'t, 'q>, AllocError> {
    match automaton_of(trie.kind, choice) {
        AnyAutomaton::Prefix(word) => {
            Ok(ListedPairs::Prefix(by_word(alloc, trie, choice, part, word)?))
        }
        AnyAutomaton::Range(word) => {
            Ok(ListedPairs::Range(by_word(alloc, trie, choice, part, word)?))
        }
        AnyAutomaton::Glob(word) => {
            Ok(ListedPairs::Glob(by_word(alloc, trie, choice, part, word)?))
        }
        AnyAutomaton::GlobChars(word) => {
            Ok(ListedPairs::GlobChars(by_word(alloc, trie, choice, part, word)?))
        }
        AnyAutomaton::Subsequence(word) => {
            Ok(ListedPairs::Subsequence(by_word(alloc, trie, choice, part, word)?))
        }
        AnyAutomaton::Fuzzy(word) => {
            Ok(ListedPairs::Fuzzy(by_word(alloc, trie, choice, part, word)?))
        }
        AnyAutomaton::FuzzyChars(word) => {
            Ok(ListedPairs::FuzzyChars(by_word(alloc, trie, choice, part, word)?))
        }
        AnyAutomaton::Swaps(word) => {
            Ok(ListedPairs::Swaps(by_word(alloc, trie, choice, part, word)?))
        }
        AnyAutomaton::SwapsChars(word) => {
            Ok(ListedPairs::SwapsChars(by_word(alloc, trie, choice, part, word)?))
        }
    }
}

/// Returns whether a range has no bounds.
fn is_unbounded(range: KeyRange<'_>) -> bool {
    match (range.from, range.to) {
        (Bound::Unbounded, Bound::Unbounded) => true,
        (Bound::Unbounded, Bound::Included(_) | Bound::Excluded(_))
        | (Bound::Included(_) | Bound::Excluded(_), _) => false,
    }
}

/// Returns whether a choice has no condition but a prefix and that of its word.
fn is_by_prefix(choice: Choice<'_>) -> bool {
    choice.without.is_none() && is_unbounded(choice.range)
}

/// Returns whether a choice has no condition but a prefix.
fn is_prefix_alone(choice: Choice<'_>) -> bool {
    choice.sought.is_none() && is_by_prefix(choice)
}

/// Returns whether a choice has no condition but that of its word.
fn has_no_conditions(choice: Choice<'_>) -> bool {
    choice.prefix.is_empty() && is_by_prefix(choice)
}

/// Returns the automaton of the keys of which the conditions of a choice hold but that of its word, or
/// `None` if they hold of all.
fn condition_of<'q>(kind: TrieKind, choice: Choice<'q>) -> Option<Conditions<'q>> {
    if has_no_conditions(choice) {
        return None;
    }
    Some(conditions(kind, choice))
}

/// Returns two bounds between which all keys are that are chosen. `above` is above all keys that begin
/// with the prefix.
fn bounds<'q>(kind: TrieKind, choice: Choice<'q>, above: Bound<&'q [u8]>) -> KeyRange<'q> {
    match (kind, is_unbounded(choice.range)) {
        (TrieKind::Ignore, _) => KeyRange {
            from: Bound::Unbounded,
            to: Bound::Unbounded,
        },
        (TrieKind::Simple | TrieKind::Hash | TrieKind::Ext, true) => KeyRange {
            from: Bound::Included(choice.prefix),
            to: above,
        },
        (TrieKind::Simple | TrieKind::Hash | TrieKind::Ext, false) => choice.range,
    }
}

/// Lists the pairs between two bounds whose keys are chosen. The choice has no word.
fn unsought<'t, 'q>(
    alloc: Global,
    trie: &'t TrieRef<'_>,
    choice: Choice<'q>,
    part: KeyRange<'q>,
) -> Result<ListedPairs<'t, 'q>, AllocError> {
    let kept = conditions(trie.kind, choice);
    let pairs = trie.search_range(alloc, part.from, part.to, kept)?;
    Ok(ListedPairs::Kept(pairs))
}

/// Lists the pairs whose keys are chosen, in the order of their bytes.
fn sorted<'t, 'q>(
    alloc: Global,
    trie: &'t TrieRef<'_>,
    choice: Choice<'q>,
    above: Bound<&'q [u8]>,
) -> Result<ChosenPairs<'t, 'q>, AllocError> {
    let part = bounds(trie.kind, choice, above);
    if choice.sought.is_none() {
        let pairs = unsought(alloc, trie, choice, part)?;
        return Ok(ChosenPairs {
            pairs,
            condition: None,
        });
    }
    let pairs = found(alloc, trie, choice, part)?;
    let condition = condition_of(trie.kind, choice);
    Ok(ChosenPairs { pairs, condition })
}

/// Lists the pairs whose keys are chosen: in the order of the trie those with a prefix, and others in the
/// order of their bytes.
fn stored<'t, 'q>(
    alloc: Global,
    trie: &'t TrieRef<'_>,
    choice: Choice<'q>,
    above: Bound<&'q [u8]>,
) -> Result<ChosenPairs<'t, 'q>, AllocError> {
    if !is_prefix_alone(choice) {
        return sorted(alloc, trie, choice, above);
    }
    let pairs = trie.stream_prefix(alloc, choice.prefix)?;
    Ok(ChosenPairs {
        pairs: ListedPairs::Plain(pairs),
        condition: None,
    })
}

/// Returns whether a listing has a pair.
fn has_pair<P: TrieListing>(mut pairs: P) -> Result<bool, AllocError> {
    pairs.advance()
}

/// Returns whether a trie has a pair whose key is chosen.
fn has_chosen<'q>(
    alloc: Global,
    trie: &TrieRef<'_>,
    choice: Choice<'q>,
    above: Bound<&'q [u8]>,
) -> Result<bool, AllocError> {
    let pairs = sorted(alloc, trie, choice, above)?;
    has_pair(pairs)
}

/// Returns the fewest edits of the word of a choice with which a pair is chosen, or as many as it allows if
/// none is.
fn fewest_edits<'q>(
    alloc: Global,
    trie: &TrieRef<'_>,
    choice: Choice<'q>,
    above: Bound<&'q [u8]>,
) -> Result<u32, AllocError> {
    for edits in 0..choice.edits() {
        if has_chosen(alloc, trie, choice.with_edits(edits), above)? {
            return Ok(edits);
        }
    }
    Ok(choice.edits())
}

/// Lists the pairs that the fewest edits of the word find, in the order of their bytes.
fn closest<'t, 'q>(
    alloc: Global,
    trie: &'t TrieRef<'_>,
    choice: Choice<'q>,
    above: Bound<&'q [u8]>,
) -> Result<ChosenPairs<'t, 'q>, AllocError> {
    let edits = fewest_edits(alloc, trie, choice, above)?;
    sorted(alloc, trie, choice.with_edits(edits), above)
}

/// Lists the pairs that edits of a word find, or if `begins` is set, those that begin so, the nearest first.
fn near<'t, W: Fuzzy>(
    alloc: Global,
    trie: &'t TrieRef<'_>,
    word: W,
    begins: bool,
) -> NearPairs<'t, W> {
    trie.nearest(alloc, ByKind(trie.kind, Near { word, begins }))
}

/// Lists the pairs whose keys are chosen, all of them by no edit, in the order of their bytes.
fn exact<'t, 'q>(
    alloc: Global,
    trie: &'t TrieRef<'_>,
    choice: Choice<'q>,
    above: Bound<&'q [u8]>,
) -> Result<ChosenPairs<'t, 'q>, AllocError> {
    sorted(alloc, trie, choice, above)
}

/// Lists the pairs whose keys are chosen, the nearest first, by the automaton of a word.
fn by_edits<'t, 'q>(
    alloc: Global,
    trie: &'t TrieRef<'_>,
    choice: Choice<'q>,
    above: Bound<&'q [u8]>,
    any: AnyAutomaton<'q>,
) -> Result<ChosenPairs<'t, 'q>, AllocError> {
    let condition = condition_of(trie.kind, choice);
    let begins = choice.begins();
    match any {
        AnyAutomaton::Fuzzy(word) => {
            let pairs = ListedPairs::NearFuzzy(near(alloc, trie, word, begins));
            Ok(ChosenPairs { pairs, condition })
        }
        AnyAutomaton::FuzzyChars(word) => {
            let pairs = ListedPairs::NearFuzzyChars(near(alloc, trie, word, begins));
            Ok(ChosenPairs { pairs, condition })
        }
        AnyAutomaton::Swaps(word) => {
            let pairs = ListedPairs::NearSwaps(near(alloc, trie, word, begins));
            Ok(ChosenPairs { pairs, condition })
        }
        AnyAutomaton::SwapsChars(word) => {
            let pairs = ListedPairs::NearSwapsChars(near(alloc, trie, word, begins));
            Ok(ChosenPairs { pairs, condition })
        }
        AnyAutomaton::Prefix(_)
        | AnyAutomaton::Range(_)
        | AnyAutomaton::Glob(_)
        | AnyAutomaton::GlobChars(_)
        | AnyAutomaton::Subsequence(_) => exact(alloc, trie, choice, above),
    }
}

/// Lists the pairs whose keys are chosen, the nearest first.
fn nearest<'t, 'q>(
    alloc: Global,
    trie: &'t TrieRef<'_>,
    choice: Choice<'q>,
    above: Bound<&'q [u8]>,
) -> Result<ChosenPairs<'t, 'q>, AllocError> {
    let Some(sought) = choice.sought else {
        return exact(alloc, trie, choice, above);
    };
    match sought.automaton(trie.kind) {
        Some(any) => by_edits(alloc, trie, choice, above, any),
        None => exact(alloc, trie, choice, above),
    }
}

/// Lists the pairs whose keys are chosen, in an order. The words of the choice are as the kind compares
/// them.
fn ordered<'t, 'q>(
    alloc: Global,
    trie: &'t TrieRef<'_>,
    choice: Choice<'q>,
    above: Bound<&'q [u8]>,
    order: Order,
) -> Result<ChosenPairs<'t, 'q>, AllocError> {
    match order {
        Order::Stored => stored(alloc, trie, choice, above),
        Order::ByBytes => sorted(alloc, trie, choice, above),
        Order::Closest => closest(alloc, trie, choice, above),
        Order::Nearest => nearest(alloc, trie, choice, above),
    }
}

/// Lists pairs that are chosen or, if a number is given, those of them that have the greatest values.
fn topped<'t, 'q>(
    alloc: Global,
    pairs: ChosenPairs<'t, 'q>,
    top: Option<usize>,
) -> Result<ChosenPairs<'t, 'q>, AllocError> {
    let Some(most) = top else {
        return Ok(pairs);
    };
    let held = HeldPairs::greatest(alloc, pairs, most)?;
    Ok(ChosenPairs {
        pairs: ListedPairs::Held(held),
        condition: None,
    })
}

/// Lists the pairs of a selection: the first whose keys are chosen, in its order, or those of the greatest
/// values. `words` are those of its choice.
///
/// It validates no bytes. In the order of the trie it reads the part with the prefix. In the order of bytes
/// it reads the part between the bounds of the range or, if there are none and the kind does not ignore case,
/// the part with the prefix, and skips the keys that begin as none of these keys does.
pub(in crate::zerotrie_queries) fn listed<'t, 'q>(
    alloc: Global,
    trie: &'t TrieRef<'_>,
    words: &'q FoldedWords,
    selection: ListQuery<'q>,
) -> Result<FirstPairs<ChosenPairs<'t, 'q>>, AllocError> {
    let folded = words.in_place_of(selection.choice);
    let pairs = ordered(alloc, trie, folded, words.above(), selection.order)?;
    Ok(FirstPairs {
        source: topped(alloc, pairs, selection.top)?,
        limit: selection.limit,
        ended: false,
    })
}
