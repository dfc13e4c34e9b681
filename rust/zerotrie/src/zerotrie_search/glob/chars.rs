// Made from crates/zerotrie_search/src/glob/chars.rt by rust/make: edit that.
//! Keys that a pattern of characters matches.

use super::GlobError;
use super::masks::{Masks, takers_of};
use super::pattern::Text;
use crate::zerotrie_search::automaton::Automaton;
use crate::zerotrie_search::pending::{Pending, Taken};
use crate::rstd::fmt;
use crate::zerotrie_core::ByteSet;

/// Accepts the keys that are text, and that a pattern matches, character by character.
///
/// ```
/// # use zerotrie::{rstd::examples::*, zerotrie_search::*, zerotrie_base::*, zerotrie_core::*};
/// let automaton = GlobChars::new("{caf[éè],thé}?")?;
/// let mut state = automaton.start();
/// for byte in "cafés".as_bytes() {
///     state = automaton.step(state, *byte);
/// }
/// assert!(automaton.is_match(state));
/// # Ok::<(), Fail>(())
/// ```
///
/// A pattern means what it means for `Glob`, but each character is a letter in place of each byte:
/// `?` and a class take one character, and a range has the characters between two by their numbers.
/// It accepts no key that is not UTF-8.
#[derive(Clone, Copy)]
pub struct GlobChars<'p> {
    pattern: &'p str,
    any_case: bool,
    masks: Masks,
}

/// A bit for each place in the pattern, and the first bytes of a character that is not complete.
#[derive(Clone, Copy, Debug)]
pub struct GlobState {
    marks: u64,
    pending: Pending,
}

impl<'p> fmt::Debug for GlobChars<'p> {
    fn fmt(&self, f: &mut fmt::Formatter<'_>) -> fmt::Result {
        f.debug_struct("GlobChars")
            .field("pattern", &self.pattern)
            .field("any_case", &self.any_case)
            .finish()
    }
}

impl<'p> GlobChars<'p> {
    /// Accepts the text that the pattern matches.
    ///
    /// ```
    /// # use zerotrie::{rstd::examples::*, zerotrie_search::*, zerotrie_base::*, zerotrie_core::*};
    /// assert!(GlobChars::new("[α-ω]*").is_ok());
    /// assert!(matches!(GlobChars::new("[ω-α]*"), Err(GlobError::Malformed)));
    /// # Ok::<(), Fail>(())
    /// ```
    pub fn new(pattern: &'p str) -> Result<Self, GlobError> {
        Self::of(pattern, false)
    }

    /// Accepts the text that the pattern matches in any case: an ASCII letter of it, in a class too, is
    /// taken in both of its cases.
    ///
    /// ```
    /// # use zerotrie::{rstd::examples::*, zerotrie_search::*, zerotrie_base::*, zerotrie_core::*};
    /// assert!(GlobChars::in_any_case("[A-_]é*").is_ok());
    /// # Ok::<(), Fail>(())
    /// ```
    pub fn in_any_case(pattern: &'p str) -> Result<Self, GlobError> {
        Self::of(pattern, true)
    }

    /// Accepts the text that the pattern matches, in any case or as it is.
    pub(in crate::made::zerotrie_search) fn of(pattern: &'p str, any_case: bool) -> Result<Self, GlobError> {
        let masks = Masks::of(Text::Chars(pattern), any_case)?;
        Ok(GlobChars {
            pattern,
            any_case,
            masks,
        })
    }

    /// Returns the marks of the items that take a character.
    #[inline]
    fn takers(&self, letter: u32) -> u64 {
        if letter < 256 {
            self.masks.takers(letter as u8)
        } else {
            takers_of(Text::Chars(self.pattern), self.any_case, letter)
        }
    }
}

impl<'p> Automaton for GlobChars<'p> {
    type State = Option<GlobState>;

    fn start(&self) -> Option<GlobState> {
        Some(GlobState {
            marks: self.masks.first(),
            pending: Pending::none(),
        })
    }

    fn step(&self, state: Option<GlobState>, byte: u8) -> Option<GlobState> {
        let state = state?;
        match state.pending.and(byte) {
            Taken::More(pending) => Some(GlobState {
                marks: state.marks,
                pending,
            }),
            Taken::Letter(letter) => Some(GlobState {
                marks: self.masks.step(state.marks, self.takers(letter)),
                pending: Pending::none(),
            }),
            Taken::Malformed => None,
        }
    }

    fn is_match(&self, state: Option<GlobState>) -> bool {
        match state {
            None => false,
            Some(state) => state.pending.is_none() && self.masks.is_match(state.marks),
        }
    }

    fn can_match(&self, state: Option<GlobState>) -> bool {
        match state {
            None => false,
            Some(state) => state.marks != 0,
        }
    }

    fn wanted(&self, state: Option<GlobState>) -> Option<ByteSet> {
        let state = state?;
        if !state.pending.is_none() {
            return None;
        }
        if self.masks.is_over(state.marks) {
            Some(ByteSet::none())
        } else {
            None
        }
    }
}
