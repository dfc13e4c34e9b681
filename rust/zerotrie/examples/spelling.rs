//! Corrections of a typed word, the nearest first: an edit is a character too many, one that is
//! missing, another one, or two neighbours that changed places.
//!
//!     cargo run --example spelling

use zerotrie::ZeroTrieSimpleAscii;
use zerotrie::search::{Automaton, Both, ByteSet, Osa};

const WORDS: [&str; 6] = ["from", "form", "farm", "firm", "form-2", "fort"];

/// Accepts words of letters.
struct Letters;

impl Automaton for Letters {
    type State = bool;

    fn start(&self) -> bool {
        true
    }

    fn step(&self, state: bool, byte: u8) -> bool {
        state && byte.is_ascii_lowercase()
    }

    fn is_match(&self, state: bool) -> bool {
        state
    }

    fn can_match(&self, state: bool) -> bool {
        state
    }

    // So a search enters no edge for another byte.
    fn wanted(&self, _state: bool) -> Option<ByteSet> {
        Some(ByteSet::from_bytes(b"abcdefghijklmnopqrstuvwxyz"))
    }
}

/// The words of letters that at most two edits make of a word, each behind the number of edits.
fn near(table: &ZeroTrieSimpleAscii<Vec<u8>>, typed: &str) -> Vec<(usize, &'static str)> {
    let Some(osa) = Osa::new(typed.as_bytes(), 2) else {
        return Vec::new(); // more than 63 bytes
    };
    let mut found = Vec::new();
    let mut matches = table.search(Both(osa, Letters));
    while matches.advance() {
        let (state, _) = matches.state();
        found.extend(osa.distance(state).map(|edits| (edits, WORDS[matches.value()])));
    }
    found.sort();
    found
}

fn main() -> Result<(), Box<dyn std::error::Error>> {
    let table = ZeroTrieSimpleAscii::try_from_iter(WORDS.into_iter().zip(0..))?;
    println!("{:?}", near(&table, "form")); // [(0, "form"), (1, "farm"), (1, "firm"), (1, "fort"), (1, "from")]
    println!("{:?}", near(&table, "fomr")); // [(1, "form"), (2, "farm"), (2, "firm"), (2, "fort"), (2, "from")]
    println!("{:?}", near(&table, "unform")); // [(2, "form")]
    Ok(())
}
