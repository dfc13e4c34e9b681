// Made from crates/zerotrie_run/src/combine.rt by rust/make: edit that.
//! A file of the tries of others.

use crate::rstd::prelude::*;
use crate::zerotrie_run::command::Place;
use crate::zerotrie_run::front::hint_of;
use crate::zerotrie_run::making::MakingError;
use crate::zerotrie_run::open::open_in_full;
use crate::rstd::alloc::Global;
use crate::zerotrie_core::{TrieKind, TrieRef};
use crate::zerotrie_making::{Combination, Made, kind_kept, make_combined};

/// Opens the trie in the bytes of a file, and validates them.
fn open_one<'a, 'h>(
    alloc: Global,
    place: Place<'a>,
    held: &'h [u8],
) -> Result<TrieRef<'h>, MakingError<'a>> {
    match open_in_full(alloc, None, held) {
        Ok(trie) => Ok(trie),
        Err(why) => Err(MakingError::NoTrie(place, why, hint_of(held))),
    }
}

/// Opens the trie that each file holds.
fn open_all<'a, 'h>(
    alloc: Global,
    from: &[Place<'a>],
    held: &'h [Vec<u8>],
) -> Result<Vec<TrieRef<'h>>, MakingError<'a>> {
    let mut tries = Vec::with_capacity(alloc, held.len())?;
    for number in 0..held.len() {
        let place = from[number];
        match open_one(alloc, place, held[number].as_slice()) {
            Ok(trie) => tries.push(trie)?,
            Err(error) => return Err(error),
        }
    }
    Ok(tries)
}

/// Returns whether no kind is named, and tries have several.
fn have_several_kinds(named: Option<TrieKind>, tries: &[TrieRef<'_>]) -> bool {
    !tries.is_empty() && kind_kept(named, tries).is_none()
}

/// Makes a file of what files hold, and returns whether no kind is named for it and their tries have
/// several.
pub fn combine<'a>(
    alloc: Global,
    combination: Combination,
    from: &[Place<'a>],
    held: &[Vec<u8>],
) -> Result<(Made, bool), MakingError<'a>> {
    let tries = open_all(alloc, from, held)?;
    let several = have_several_kinds(combination.kind, tries.as_slice());
    let made = make_combined(alloc, combination, tries.as_slice())?;
    Ok((made, several))
}
