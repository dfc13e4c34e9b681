// Made from crates/zerotrie_search/src/keys_of.rt by rust/make: edit that.
//! The keys of another trie.

use crate::zerotrie_search::automaton::Automaton;
use crate::zerotrie_core::laws::steps_look_ahead;
use crate::zerotrie_core::{
    CursorPlace, ZeroTrieBuilderOptions, ZeroTrieWithOptions, by_kind, is_well_formed,
};

/// Accepts the keys of another trie of any kind, as that kind compares bytes.
///
/// ```
/// # use zerotrie::{rstd::examples::*, zerotrie_search::*, zerotrie_base::*, zerotrie_core::*};
/// let words = [("trial", 1), ("trie", 2), ("trio", 3)];
/// let trie = ZeroTrieSimpleAscii::try_from_iter(Global, words)?;
/// // the keys "trie" and "try" with values 5 and 6
/// let other = b"tr\xC2iy\x02e\x85\x86";
/// let keys = KeysOf::validated::<Simple>(other).ok_or("no trie")?;
/// let mut search = trie.search(Global, keys);
/// assert!(search.advance()?);
/// assert_eq!(search.value(), 2);
/// assert_eq!(search.automaton().value(search.state()), Some(5));
/// assert!(!search.advance()?);
/// # Ok::<(), Fail>(())
/// ```
///
/// So a search lists what two tries have in common, and `Not` of it what only the first has. A
/// state is a cursor in the other trie.
pub struct KeysOf<'b> {
    options: ZeroTrieBuilderOptions,
    bytes: &'b [u8],
}

impl<'b> KeysOf<'b> {
    /// Returns the automaton of a trie's keys. Does not validate its bytes.
    pub fn new<K: ZeroTrieWithOptions>(bytes: &'b [u8]) -> Self {
        KeysOf {
            options: ZeroTrieBuilderOptions::of::<K>(),
            bytes,
        }
    }

    /// Returns the automaton of a trie's keys, or `None` if the bytes are not valid.
    pub fn validated<K: ZeroTrieWithOptions>(bytes: &'b [u8]) -> Option<Self> {
        if is_well_formed::<K>(bytes) {
            Some(KeysOf::new::<K>(bytes))
        } else {
            None
        }
    }

    /// Returns the value that the other trie has for the bytes before a state, or `None` if they
    /// are not one of its keys.
    pub fn value(&self, state: CursorPlace) -> Option<usize> {
        steps_look_ahead();
        let mut at = state;
        at.take_value(self.bytes)
    }
}

/// Returns the place after one more byte.
fn stepped<K: ZeroTrieWithOptions>(bytes: &[u8], place: CursorPlace, byte: u8) -> CursorPlace {
    let mut next = place;
    let _edge = next.step::<K>(bytes, byte);
    next
}

/// Calls `stepped` for the kind that the options name.
fn stepped_in(
    options: ZeroTrieBuilderOptions,
    bytes: &[u8],
    place: CursorPlace,
    byte: u8,
) -> CursorPlace {
    by_kind!(options.kind(), stepped::<_>(bytes, place, byte))
}

impl<'b> Automaton for KeysOf<'b> {
    type State = CursorPlace;

    fn start(&self) -> CursorPlace {
        CursorPlace::new(self.bytes)
    }

    fn step(&self, state: CursorPlace, byte: u8) -> CursorPlace {
        steps_look_ahead();
        stepped_in(self.options, self.bytes, state, byte)
    }

    fn is_match(&self, state: CursorPlace) -> bool {
        let mut place = state;
        place.take_value(self.bytes).is_some()
    }

    fn can_match(&self, state: CursorPlace) -> bool {
        !state.cursor(self.bytes).is_empty()
    }
}
