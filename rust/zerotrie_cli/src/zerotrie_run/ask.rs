// Made from crates/zerotrie_run/src/ask.rt by rust/make: edit that.
//! A question to the trie or the index of a file.

use crate::rstd::prelude::*;
use crate::zerotrie_run::at_places::answer_at_places;
use crate::zerotrie_run::command::{Keys, Question, TrieFile};
use crate::zerotrie_run::found::write_found;
use crate::zerotrie_run::front::{Hint, hint_of, refused_by_front};
use crate::zerotrie_run::messages::ask::tell_number;
use crate::zerotrie_run::open::{asks_index, open_index, open_trie};
use crate::zerotrie_run::place::{open_place, read_opened};
use crate::zerotrie_run::status::Status;
use crate::zerotrie_run::stdin_lines::{AnswerError, answer_lines};
use crate::rstd::alloc::Global;
use crate::rstd::io;
use crate::rstd::io::{BufWriter, Read, Write};
use crate::zerotrie_core::TrieRef;
use crate::zerotrie_files::{Disk, Noted, Store};
use crate::zerotrie_queries::{
    Asked, Finder, Form, ListError, OpenError, Query, write_answers, write_trie_code,
    write_trie_report, write_trie_view,
};
use crate::zerotrie_reverse::Reverse;

/// Why a question has no answer.
#[derive(Debug)]
pub enum AskError {
    /// The file can't be read, or memory was refused before it was opened.
    Unread(io::Error),
    /// The file has no trie, nor an index that answers the question, and looks so.
    NoTrie(OpenError, Hint),
    /// The pairs can't be printed in this form, as it can't have this key.
    Unprintable(Form, Vec<u8>),
    /// It can't be answered, or not to the end.
    Unanswered(AnswerError),
}

impl AskError {
    /// Returns how the run ends if the question is refused. `None` if something failed.
    pub fn refusal(&self) -> Option<Status> {
        match self {
            AskError::NoTrie(why, _) => match why {
                OpenError::BadTag(_) | OpenError::Damaged(_) | OpenError::NotWellFormed(_, _) => {
                    Some(Status::BadInput)
                }
                OpenError::OutOfMemory => None,
            },
            AskError::Unprintable(_, _) => Some(Status::Refused),
            AskError::Unanswered(AnswerError::NoLines(_)) => Some(Status::BadKeys),
            AskError::Unread(_)
            | AskError::Unanswered(AnswerError::Input(_) | AnswerError::Output(_)) => None,
        }
    }
}

impl From<AnswerError> for AskError {
    fn from(error: AnswerError) -> Self {
        AskError::Unanswered(error)
    }
}

impl From<io::Error> for AskError {
    fn from(error: io::Error) -> Self {
        AskError::Unanswered(AnswerError::Output(error))
    }
}

/// Answers keys or texts: the given words, or the lines of standard input. Returns whether all was
/// found.
fn answer_keys<R: Read, W: Write>(
    alloc: Global,
    finder: &Finder<'_>,
    query: Query,
    keys: Keys<'_>,
    input: &mut Noted<R>,
    output: &mut Noted<BufWriter<W>>,
) -> Result<bool, AnswerError> {
    match keys {
        Keys::Words(words) => Ok(write_answers(alloc, finder, query, words, output)?),
        Keys::Lines => answer_lines(alloc, finder, query, input, output),
    }
}

/// Answers the values that are lines of standard input, by a table of the keys of a trie.
fn answer_by_table<R: Read, W: Write>(
    alloc: Global,
    trie: &TrieRef<'_>,
    query: Query,
    input: &mut Noted<R>,
    output: &mut Noted<BufWriter<W>>,
) -> Result<bool, AnswerError> {
    let table = match trie.keys_by_value(alloc) {
        Ok(table) => table,
        Err(error) => return Err(AnswerError::Output(io::Error::from(error))),
    };
    let finder = Finder::Table(&table);
    answer_lines(alloc, &finder, query, input, output)
}

/// Answers keys, texts or values by a trie. Values that are lines are looked up in a table, others
/// by a scan each.
fn answer_by_trie<R: Read, W: Write>(
    alloc: Global,
    trie: &TrieRef<'_>,
    query: Query,
    keys: Keys<'_>,
    input: &mut Noted<R>,
    output: &mut Noted<BufWriter<W>>,
) -> Result<bool, AnswerError> {
    match (query.asked, keys) {
        (Asked::KeyOf, Keys::Lines) => answer_by_table(alloc, trie, query, input, output),
        (Asked::KeyOf, Keys::Words(_))
        | (
            Asked::Value | Asked::Pair | Asked::Longest | Asked::LongestAt(_) | Asked::Prefixes(_),
            Keys::Words(_) | Keys::Lines,
        ) => {
            let finder = Finder::Trie(*trie);
            answer_keys(alloc, &finder, query, keys, input, output)
        }
    }
}

/// Answers a question to a trie, whose keys may be the lines of standard input, and returns whether
/// all was found.
fn answer<R: Read, W: Write>(
    alloc: Global,
    trie: &TrieRef<'_>,
    question: Question<'_>,
    input: &mut Noted<R>,
    output: &mut Noted<BufWriter<W>>,
) -> Result<bool, AskError> {
    match question {
        Question::LookUp(query, keys) => {
            Ok(answer_by_trie(alloc, trie, query, keys, input, output)?)
        }
        Question::List(form, selection) => {
            match write_found(alloc, trie, form, selection, output) {
                Ok(found) => Ok(found),
                Err(ListError::Unprintable(key)) => Err(AskError::Unprintable(form, key)),
                Err(ListError::Failed(error)) => Err(AskError::from(error)),
            }
        }
        Question::Code(language, name) => {
            write_trie_code(alloc, trie, language, name, output)?;
            Ok(true)
        }
        Question::Verify => Ok(true),
        Question::Report(form, name) => {
            write_trie_report(alloc, trie, form, name, output)?;
            Ok(true)
        }
        Question::View(view) => {
            write_trie_view(alloc, trie, view, output)?;
            Ok(true)
        }
    }
}

/// Answers a question to an index, whose keys may be the lines of standard input, and returns
/// whether all was found.
fn answer_of_index<R: Read, W: Write>(
    alloc: Global,
    index: &[u8],
    question: Question<'_>,
    input: &mut Noted<R>,
    output: &mut Noted<BufWriter<W>>,
) -> Result<bool, AnswerError> {
    match question {
        Question::LookUp(query, keys) => {
            let finder = Finder::Index(index);
            answer_keys(alloc, &finder, query, keys, input, output)
        }
        Question::List(_, _)
        | Question::Code(_, _)
        | Question::Verify
        | Question::Report(_, _)
        | Question::View(_) => Ok(true),
    }
}

/// Answers a question to what is in the bytes of a file, and returns whether all was found.
fn answer_held<R: Read, W: Write>(
    alloc: Global,
    file: TrieFile<'_>,
    held: &[u8],
    question: Question<'_>,
    input: &mut Noted<R>,
    output: &mut Noted<BufWriter<W>>,
) -> Result<bool, AskError> {
    if let Some(index) = open_index(file, question, held) {
        return match answer_of_index(alloc, index, question, input, output) {
            Ok(all) => Ok(all),
            Err(error) => Err(AskError::Unanswered(error)),
        };
    }
    let trie = match open_trie(alloc, file, question, held) {
        Ok(trie) => trie,
        Err(why) => return Err(AskError::NoTrie(why, hint_of(held))),
    };
    answer(alloc, &trie, question, input, output)
}

/// Prints an answer. If that fails, a beginning of it was printed.
fn print<W: Write>(text: &[u8], output: &mut Noted<BufWriter<W>>) -> io::Result<()> {
    output.write_bytes(text)?;
    output.hand_on()
}

/// Answers a question to the trie or the index of a file, and returns whether all was found. A few keys
/// are looked up in a large index at places. A large file is refused by its first bytes if they show that
/// it has no trie. Other files are read as a whole. If the file is read as bare bytes and begins with the
/// number of a kind, a message says so.
pub fn ask<D: Disk, R: Read, W: Write, M: Write>(
    alloc: Global,
    file: TrieFile<'_>,
    question: Question<'_>,
    files: &mut Store<D>,
    input: &mut Noted<R>,
    output: &mut Noted<BufWriter<W>>,
    messages: &mut Noted<M>,
) -> Result<bool, AskError> {
    let opened = match open_place(file.place, files) {
        Ok(opened) => opened,
        Err(error) => return Err(AskError::Unread(error)),
    };
    if let Some((text, all)) = answer_at_places(alloc, file, question, &opened) {
        print(text.as_slice(), output)?;
        return Ok(all);
    }
    if let Some((why, hint)) = refused_by_front(file, asks_index(question), &opened) {
        return Err(AskError::NoTrie(why, hint));
    }
    let held = match read_opened(alloc, opened, files, input) {
        Ok(held) => held,
        Err(error) => return Err(AskError::Unread(error)),
    };
    let held = held.as_slice();
    if let Err(error) = tell_number(alloc, messages, file, held) {
        return Err(AskError::Unread(io::Error::from(error)));
    }
    let all = answer_held(alloc, file, held, question, input, output)?;
    match output.hand_on() {
        Ok(()) => Ok(all),
        Err(error) => Err(AskError::Unanswered(AnswerError::Output(error))),
    }
}
