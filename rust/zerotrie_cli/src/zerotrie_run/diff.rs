// Made from crates/zerotrie_run/src/diff.rt by rust/make: edit that.
//! A comparison of the tries of two files.

use crate::rstd::prelude::*;
use crate::zerotrie_run::ask::AskError;
use crate::zerotrie_run::command::{Check, Diff, TrieFile};
use crate::zerotrie_run::front::{hint_of, refused_by_front};
use crate::zerotrie_run::messages::ask::tell_number;
use crate::zerotrie_run::open::open_in_full;
use crate::zerotrie_run::place::{open_place, read_opened};
use crate::zerotrie_run::stdin_lines::AnswerError;
use crate::rstd::alloc::Global;
use crate::rstd::io;
use crate::rstd::io::{BufWriter, Read, Write};
use crate::zerotrie_core::TrieRef;
use crate::zerotrie_files::{Disk, Noted, Store};
use crate::zerotrie_queries::write_diff;

/// Why two files are not compared, and which of them shows it.
#[derive(Debug)]
pub struct DiffError<'a> {
    pub file: TrieFile<'a>,
    pub error: AskError,
}

/// Returns the file of the old trie.
fn old_file<'a>(diff: Diff<'a>) -> TrieFile<'a> {
    TrieFile {
        place: diff.old,
        bare: diff.bare,
        check: Check::Full,
    }
}

/// Returns the file of the new trie.
fn new_file<'a>(diff: Diff<'a>) -> TrieFile<'a> {
    TrieFile {
        place: diff.new,
        bare: diff.bare,
        check: Check::Full,
    }
}

/// Reads a file, unless its first bytes show that it has no trie. If it is read as bare bytes and begins with the number of a kind, a message says
/// so.
fn read_file<'a, D: Disk, R: Read, M: Write>(
    alloc: Global,
    file: TrieFile<'a>,
    files: &mut Store<D>,
    input: &mut Noted<R>,
    messages: &mut Noted<M>,
) -> Result<Vec<u8>, DiffError<'a>> {
    let opened = match open_place(file.place, files) {
        Ok(opened) => opened,
        Err(error) => {
            return Err(DiffError {
                file,
                error: AskError::Unread(error),
            });
        }
    };
    if let Some((why, hint)) = refused_by_front(file, false, &opened) {
        return Err(DiffError {
            file,
            error: AskError::NoTrie(why, hint),
        });
    }
    let held = match read_opened(alloc, opened, files, input) {
        Ok(held) => held,
        Err(error) => {
            return Err(DiffError {
                file,
                error: AskError::Unread(error),
            });
        }
    };
    match tell_number(alloc, messages, file, held.as_slice()) {
        Ok(()) => Ok(held),
        Err(error) => Err(DiffError {
            file,
            error: AskError::Unread(io::Error::from(error)),
        }),
    }
}

/// Opens the trie in the bytes of a file that is tested in full.
fn open_file<'a, 'h>(
    alloc: Global,
    file: TrieFile<'a>,
    held: &'h [u8],
) -> Result<TrieRef<'h>, DiffError<'a>> {
    match open_in_full(alloc, file.bare, held) {
        Ok(trie) => Ok(trie),
        Err(why) => Err(DiffError {
            file,
            error: AskError::NoTrie(why, hint_of(held)),
        }),
    }
}

/// Compares the tries in the bytes of two files, and returns whether they have the same pairs.
fn compare_held<'a, W: Write>(
    alloc: Global,
    diff: Diff<'a>,
    held: &[u8],
    other: &[u8],
    output: &mut Noted<W>,
) -> Result<bool, DiffError<'a>> {
    let old = open_file(alloc, old_file(diff), held)?;
    let new = open_file(alloc, new_file(diff), other)?;
    match write_diff(alloc, &old, &new, output) {
        Ok(same) => Ok(same),
        Err(error) => Err(DiffError {
            file: new_file(diff),
            error: AskError::Unanswered(AnswerError::Output(error)),
        }),
    }
}

/// Compares the tries in the bytes of two files, hands on what is printed, and returns whether they
/// have the same pairs.
fn compare_and_hand_on<'a, W: Write>(
    alloc: Global,
    diff: Diff<'a>,
    held: &[u8],
    other: &[u8],
    output: &mut Noted<BufWriter<W>>,
) -> Result<bool, DiffError<'a>> {
    let same = compare_held(alloc, diff, held, other, output)?;
    match output.hand_on() {
        Ok(()) => Ok(same),
        Err(error) => Err(DiffError {
            file: new_file(diff),
            error: AskError::Unanswered(AnswerError::Output(error)),
        }),
    }
}

/// Compares the tries of two files, and returns whether they have the same pairs. Not both files are
/// standard input.
pub fn compare<'a, D: Disk, R: Read, W: Write, M: Write>(
    alloc: Global,
    diff: Diff<'a>,
    files: &mut Store<D>,
    input: &mut Noted<R>,
    output: &mut Noted<BufWriter<W>>,
    messages: &mut Noted<M>,
) -> Result<bool, DiffError<'a>> {
    let held = read_file(alloc, old_file(diff), files, input, messages)?;
    let other = read_file(alloc, new_file(diff), files, input, messages)?;
    compare_and_hand_on(alloc, diff, held.as_slice(), other.as_slice(), output)
}
