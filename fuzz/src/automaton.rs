//! The automaton of a word that is known when the program runs, as one type.

use crate::brute::Question;
use zerotrie::search::{AnyAutomaton, Automaton, ByKind, ByteSet, Glob, GlobChars, KeyRange, Levenshtein, LevenshteinChars};
use zerotrie::search::{Osa, OsaChars, StartsWith, Subsequence, fold_word};

#[derive(Clone, Copy)]
pub struct Any<'p>(pub AnyAutomaton<'p>);

macro_rules! any {
    ($($name:ident($automaton:ty)),*) => {
        #[derive(Clone, Copy)]
        pub enum State<'p> {
            $($name(<$automaton as Automaton>::State)),*
        }

        impl<'p> Automaton for Any<'p> {
            type State = State<'p>;

            fn start(&self) -> State<'p> {
                match self.0 {
                    $(AnyAutomaton::$name(it) => State::$name(it.start()),)*
                }
            }

            fn step(&self, state: State<'p>, byte: u8) -> State<'p> {
                match (self.0, state) {
                    $((AnyAutomaton::$name(it), State::$name(state)) => State::$name(it.step(state, byte)),)*
                    _ => unreachable!(),
                }
            }

            fn is_match(&self, state: State<'p>) -> bool {
                match (self.0, state) {
                    $((AnyAutomaton::$name(it), State::$name(state)) => it.is_match(state),)*
                    _ => unreachable!(),
                }
            }

            fn can_match(&self, state: State<'p>) -> bool {
                match (self.0, state) {
                    $((AnyAutomaton::$name(it), State::$name(state)) => it.can_match(state),)*
                    _ => unreachable!(),
                }
            }

            fn wanted(&self, state: State<'p>) -> Option<ByteSet> {
                match (self.0, state) {
                    $((AnyAutomaton::$name(it), State::$name(state)) => it.wanted(state),)*
                    _ => unreachable!(),
                }
            }
        }
    };
}

any!(
    Prefix(StartsWith<'p>),
    Range(KeyRange<'p>),
    Glob(Glob<'p>),
    GlobChars(GlobChars<'p>),
    Subsequence(Subsequence<'p>),
    Fuzzy(Levenshtein),
    FuzzyChars(LevenshteinChars),
    Swaps(Osa),
    SwapsChars(OsaChars)
);

impl Question {
    /// Returns the word as the kind compares it.
    pub fn folded(&self) -> Vec<u8> {
        let mut word = self.word.clone();
        fold_word(self.as_kind, self.by, &mut word);
        word
    }

    /// Returns the automaton of the folded word, if it is valid.
    pub fn automaton<'p>(&self, folded: &'p [u8]) -> Option<ByKind<Any<'p>>> {
        AnyAutomaton::by_kind(self.as_kind, self.by, folded).ok().map(|it| ByKind(self.as_kind, Any(it)))
    }
}
