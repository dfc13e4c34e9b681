// Made from crates/zerotrie_words/src/names.rt by rust/make: edit that.
//! The kinds and places that words name.

use crate::zerotrie_words::misuse::Misuse;
use crate::zerotrie_core::TrieKind;
use crate::zerotrie_run::Place;

/// Returns the kind that a word names. `None` if it is left out, or the build chooses. It is an error
/// if the word is no kind.
pub fn kind_of(word: Option<&str>) -> Result<Option<TrieKind>, Misuse> {
    match word {
        None | Some("auto") => Ok(None),
        Some(word) => Ok(Some(TrieKind::named(word).ok_or(Misuse::UnknownWord)?)),
    }
}

/// Returns the place that a word names.
pub fn place_of(word: Option<&str>) -> Place<'_> {
    Place::named(word.unwrap_or("-"))
}

/// Returns the place to read that a word names. A path of standard input is that stream, so that it is
/// not read twice.
pub fn source_of(word: Option<&str>) -> Place<'_> {
    match word {
        Some("/dev/stdin" | "/dev/fd/0") => Place::Stream,
        _ => place_of(word),
    }
}
