// Made from crates/zerotrie_run/src/at_places.rt by rust/make: edit that.
//! Answers by an index that is read at places: what a few keys need of a large file.

use crate::rstd::prelude::*;
use crate::zerotrie_run::command::{Check, Keys, Question, TrieFile};
use crate::zerotrie_run::place::Opened;
use crate::rstd::alloc::Global;
use crate::rstd::io;
use crate::zerotrie_files::OpenFile;
use crate::zerotrie_index::{ReadAt, SealedIndex};
use crate::zerotrie_queries::{Query, add_answers_at};
use crate::zerotrie_sealed::BLOCK_LEN;

/// The most blocks that are read for a key, if the records of its bucket are no longer than one.
const BLOCKS_FOR_KEY: usize = 5;

/// An open file that is read at places.
struct PlacedFile<'a, F>(&'a F);

impl<'a, F: OpenFile> ReadAt for PlacedFile<'a, F> {
    type Error = io::Error;

    fn fill(&mut self, place: u64, room: &mut [u8]) -> io::Result<()> {
        self.0.read_part(place, room)
    }
}

/// Returns the answers to keys by the index in an open file, and whether all was found. `None` if it has
/// too few blocks for so many keys to gain from it.
fn look_up<F: OpenFile>(
    alloc: Global,
    file: &F,
    query: Query,
    keys: &[&[u8]],
) -> io::Result<Option<(Vec<u8>, bool)>> {
    let mut index = SealedIndex::open(alloc, PlacedFile(file))?;
    if index.index_len() / BLOCK_LEN / BLOCKS_FOR_KEY < keys.len() {
        return Ok(None);
    }
    let mut text = Vec::new(alloc);
    let all = add_answers_at(alloc, &mut text, &mut index, query, keys)?;
    Ok(Some((text, all)))
}

/// Returns the answer to a question, and whether all was found, if a few keys are asked for and the
/// file is a large index in blocks: then only some of them are read. `None` if the file is to be read
/// as a whole, also after any fault: that tells what is wrong with it.
pub fn answer_at_places<F: OpenFile>(
    alloc: Global,
    file: TrieFile<'_>,
    question: Question<'_>,
    opened: &Opened<F>,
) -> Option<(Vec<u8>, bool)> {
    let Opened::File(open) = opened else {
        return None;
    };
    let Question::LookUp(query, Keys::Words(keys)) = question else {
        return None;
    };
    if file.bare.is_some() || file.check == Check::Full || !query.asked.asks_keys() {
        return None;
    }
    match look_up(alloc, open, query, keys) {
        Ok(answer) => answer,
        Err(_) => None,
    }
}
