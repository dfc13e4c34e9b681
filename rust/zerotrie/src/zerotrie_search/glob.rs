// Made from crates/zerotrie_search/src/glob.rt by rust/make: edit that.
//! Keys that a pattern of a shell matches.

mod chars;
mod masks;
mod pattern;

use crate::zerotrie_search::WORD_LIMIT;
use crate::zerotrie_search::automaton::Automaton;
pub use chars::{GlobChars, GlobState};
use masks::Masks;
use pattern::Text;
use crate::rstd::fmt;
use crate::zerotrie_core::ByteSet;

/// Why a pattern is an error.
#[derive(Clone, Copy, Debug, PartialEq, Eq)]
#[cfg_attr(not(feature = "__internal"), non_exhaustive)]
pub enum GlobError {
    /// A class has no end, no letter, or a range that ends before it begins, a group has no end or is
    /// in another one, a brace ends no group, or a backslash at the end escapes nothing.
    Malformed,
    /// The pattern has more items than `WORD_LIMIT`. Each brace of a group is one, and so is each of its
    /// commas.
    TooLong,
}

impl core::fmt::Display for GlobError {
    #[inline]
    fn fmt(&self, f: &mut core::fmt::Formatter<'_>) -> core::fmt::Result {
        match self {
            Self::Malformed => write!(f, "the pattern is malformed"),
            Self::TooLong => write!(f, "the pattern has more than {WORD_LIMIT} items"),
        }
    }
}

impl core::error::Error for GlobError {}

/// Accepts the keys that a pattern matches, byte by byte.
///
/// ```
/// # use zerotrie::{rstd::examples::*, zerotrie_search::*, zerotrie_base::*, zerotrie_core::*};
/// let automaton = Glob::new(b"[a-c]*.{rt,antt}")?;
/// let mut state = automaton.start();
/// for byte in b"core.rt" {
///     state = automaton.step(state, *byte);
/// }
/// assert!(automaton.is_match(state));
/// # Ok::<(), Fail>(())
/// ```
///
/// `*` is any number of bytes, `?` is one byte, `[a-z_]` is one byte of the class, and `[!a-z_]` or
/// `[^a-z_]` one that is not of it. `{rt,antt}` is one of the alternatives, each of which is a pattern
/// without such a group, and may be empty. A backslash takes the meaning of the byte after it, in a
/// class too. All other bytes are themselves.
///
/// A state has a bit for each place in the pattern.
#[derive(Clone, Copy)]
pub struct Glob<'p> {
    pattern: &'p [u8],
    any_case: bool,
    masks: Masks,
}

impl<'p> fmt::Debug for Glob<'p> {
    fn fmt(&self, f: &mut fmt::Formatter<'_>) -> fmt::Result {
        f.debug_struct("Glob")
            .field("pattern", &self.pattern)
            .field("any_case", &self.any_case)
            .finish()
    }
}

impl<'p> Glob<'p> {
    /// Accepts the keys that the pattern matches.
    ///
    /// ```
    /// # use zerotrie::{rstd::examples::*, zerotrie_search::*, zerotrie_base::*, zerotrie_core::*};
    /// assert!(Glob::new(b"[^aeiou]*").is_ok());
    /// assert!(Glob::new(b"{un,}like{ly,}").is_ok());
    /// assert!(matches!(Glob::new(b"[z-a]"), Err(GlobError::Malformed)));
    /// assert!(matches!(Glob::new(b"{a,b"), Err(GlobError::Malformed)));
    /// # Ok::<(), Fail>(())
    /// ```
    pub fn new(pattern: &'p [u8]) -> Result<Self, GlobError> {
        Self::of(pattern, false)
    }

    /// Accepts the keys that the pattern matches in any case: an ASCII letter of it, in a class too, is
    /// taken in both of its cases.
    ///
    /// ```
    /// # use zerotrie::{rstd::examples::*, zerotrie_search::*, zerotrie_base::*, zerotrie_core::*};
    /// let automaton = Glob::in_any_case(b"[A-_]*")?;
    /// let state = automaton.step(automaton.start(), b'k');
    /// assert!(automaton.is_match(state));
    /// # Ok::<(), Fail>(())
    /// ```
    pub fn in_any_case(pattern: &'p [u8]) -> Result<Self, GlobError> {
        Self::of(pattern, true)
    }

    /// Accepts the keys that the pattern matches, in any case or as they are.
    pub(in crate::made::zerotrie_search) fn of(pattern: &'p [u8], any_case: bool) -> Result<Self, GlobError> {
        let masks = Masks::of(Text::Bytes(pattern), any_case)?;
        Ok(Glob {
            pattern,
            any_case,
            masks,
        })
    }
}

impl<'p> Automaton for Glob<'p> {
    type State = u64;

    fn start(&self) -> u64 {
        self.masks.first()
    }

    fn step(&self, state: u64, byte: u8) -> u64 {
        self.masks.step(state, self.masks.takers(byte))
    }

    fn is_match(&self, state: u64) -> bool {
        self.masks.is_match(state)
    }

    fn can_match(&self, state: u64) -> bool {
        state != 0
    }

    fn wanted(&self, state: u64) -> Option<ByteSet> {
        self.masks.is_over(state).then(ByteSet::none)
    }
}
