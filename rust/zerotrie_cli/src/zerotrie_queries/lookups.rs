// Made from crates/zerotrie_queries/src/lookups.rt by rust/make: edit that.
//! Look-ups of keys, of the keys that texts begin with, and of values.

use crate::rstd::prelude::*;

mod first_keys;
mod values;

use crate::zerotrie_queries::lookups::first_keys::{add_key_by_scan, add_key_by_table};
use crate::zerotrie_queries::lookups::values::write_values;
use crate::zerotrie_queries::print::{add_found, add_front, add_key_value, add_value};
use crate::zerotrie_queries::question::{Asked, Finder, Query, Spelling};
use crate::rstd::alloc::{AllocError, Global};
use crate::rstd::io;
use crate::rstd::io::Write;
use crate::zerotrie_core::{CommonPrefixes, Trie, TrieRef};
use crate::zerotrie_files::Noted;
use crate::zerotrie_index::{ReadAt, get, get_at};
use crate::zerotrie_lines::unescape;

/// Returns whether a key of this length, with which a text begins, ends at a border of the text, if that is asked
/// for.
fn ends_at(border: Option<u8>, text: &[u8], len: usize) -> bool {
    match (border, text.get(len)) {
        (Some(delimiter), Some(next)) => len == 0 || delimiter == *next,
        (Some(_), None) | (None, _) => true,
    }
}

/// Adds the lines of the keys to come that a text begins with, or of those that end at a border. Returns whether
/// there is one.
fn add_fronts(
    lines: &mut Vec<u8>,
    text: &[u8],
    border: Option<u8>,
    fronts: &mut CommonPrefixes<'_, '_>,
) -> Result<bool, AllocError> {
    let mut found = false;
    while let Some((len, value)) = fronts.next() {
        if ends_at(border, text, len) {
            add_front(lines, text, len, value)?;
            found = true;
        }
    }
    Ok(found)
}

/// Adds the line of each key that a text begins with, or of those that end at a border, or `none`. Returns
/// whether there is one.
fn add_prefixes(
    text: &mut Vec<u8>,
    trie: &TrieRef<'_>,
    border: Option<u8>,
    asked: &[u8],
) -> Result<bool, AllocError> {
    let mut fronts = trie.common_prefixes(asked);
    let found = add_fronts(text, asked, border, &mut fronts)?;
    if !found {
        text.extend_from_slice(b"none\n")?;
    }
    Ok(found)
}

/// Adds what a trie was asked of a text, and returns whether it was found.
fn add_trie_answer(
    alloc: Global,
    line: &mut Vec<u8>,
    trie: &TrieRef<'_>,
    asked: Asked,
    text: &[u8],
) -> Result<bool, AllocError> {
    match asked {
        Asked::Value => {
            let value = trie.get(text);
            add_value(line, value)?;
            Ok(value.is_some())
        }
        Asked::Pair => {
            let value = trie.get(text);
            add_key_value(line, text, value)?;
            Ok(value.is_some())
        }
        Asked::Longest => {
            let found = trie.longest_prefix(text);
            add_found(line, text, found)?;
            Ok(found.is_some())
        }
        Asked::LongestAt(delimiter) => {
            let found = trie.longest_prefix_at(text, &[delimiter]);
            add_found(line, text, found)?;
            Ok(found.is_some())
        }
        Asked::Prefixes(border) => add_prefixes(line, trie, border, text),
        Asked::KeyOf => add_key_by_scan(alloc, line, trie, text),
    }
}

/// Adds the value that an index has for a key, as it was asked for, and returns whether there is one.
fn add_indexed(
    line: &mut Vec<u8>,
    value: Option<usize>,
    asked: Asked,
    key: &[u8],
) -> Result<bool, AllocError> {
    match asked {
        Asked::Pair => {
            add_key_value(line, key, value)?;
            Ok(value.is_some())
        }
        Asked::Value | Asked::Longest | Asked::LongestAt(_) | Asked::Prefixes(_) | Asked::KeyOf => {
            add_value(line, value)?;
            Ok(value.is_some())
        }
    }
}

/// Adds what an index was asked of a key, and returns whether it was found.
fn add_index_answer(
    line: &mut Vec<u8>,
    index: &[u8],
    asked: Asked,
    key: &[u8],
) -> Result<bool, AllocError> {
    add_indexed(line, get(index, key), asked, key)
}

/// The same of an index that is read at places.
fn add_answer_at<S: ReadAt>(
    alloc: Global,
    line: &mut Vec<u8>,
    index: &mut S,
    asked: Asked,
    key: &[u8],
) -> Result<bool, S::Error>
where
    S::Error: From<AllocError>,
{
    let value = get_at(alloc, index, key)?;
    Ok(add_indexed(line, value, asked, key)?)
}

/// The same of a text, by how it is written. `buffer` is overwritten.
fn add_queried_at<S: ReadAt>(
    alloc: Global,
    line: &mut Vec<u8>,
    buffer: &mut Vec<u8>,
    index: &mut S,
    query: Query,
    text: &[u8],
) -> Result<bool, S::Error>
where
    S::Error: From<AllocError>,
{
    match query.spelling {
        Spelling::Plain => {
            let found = add_answer_at(alloc, line, index, query.asked, text)?;
            Ok(found)
        }
        Spelling::Escaped => {
            if !unescape(text, buffer)? {
                line.extend_from_slice(b"none\n")?;
                return Ok(false);
            }
            let key = buffer.as_slice();
            let found = add_answer_at(alloc, line, index, query.asked, key)?;
            Ok(found)
        }
    }
}

/// Adds the answer to each text by an index that is read at places, one after another, and returns
/// whether all was found. The answers are those of `write_answers` to `Finder::Index`. An error is
/// one of a read or of an allocation.
pub fn add_answers_at<S: ReadAt>(
    alloc: Global,
    lines: &mut Vec<u8>,
    index: &mut S,
    query: Query,
    texts: &[&[u8]],
) -> Result<bool, S::Error>
where
    S::Error: From<AllocError>,
{
    let mut buffer = Vec::new(alloc);
    let mut all = true;
    for text in texts {
        all &= add_queried_at(alloc, lines, &mut buffer, index, query, text)?;
    }
    Ok(all)
}

/// Adds what was asked of a text, and returns whether it was found.
fn add_answer(
    alloc: Global,
    line: &mut Vec<u8>,
    finder: &Finder<'_>,
    asked: Asked,
    text: &[u8],
) -> Result<bool, AllocError> {
    match finder {
        Finder::Trie(trie) => add_trie_answer(alloc, line, trie, asked, text),
        Finder::Index(index) => add_index_answer(line, index, asked, text),
        Finder::Table(table) => add_key_by_table(alloc, line, table, text),
    }
}

/// Adds what was asked of the text that is written with these escapes, or `none` if one is
/// malformed. Returns whether it was found. `buffer` is overwritten.
fn add_spelled(
    alloc: Global,
    line: &mut Vec<u8>,
    buffer: &mut Vec<u8>,
    finder: &Finder<'_>,
    asked: Asked,
    text: &[u8],
) -> Result<bool, AllocError> {
    if unescape(text, buffer)? {
        let key = buffer.as_slice();
        return add_answer(alloc, line, finder, asked, key);
    }
    line.extend_from_slice(b"none\n")?;
    Ok(false)
}

/// Adds the answer to a text, by how it is written, and returns whether it was found. `buffer` is
/// overwritten.
fn add_queried(
    alloc: Global,
    line: &mut Vec<u8>,
    buffer: &mut Vec<u8>,
    finder: &Finder<'_>,
    query: Query,
    text: &[u8],
) -> Result<bool, AllocError> {
    match query.spelling {
        Spelling::Plain => add_answer(alloc, line, finder, query.asked, text),
        Spelling::Escaped => add_spelled(alloc, line, buffer, finder, query.asked, text),
    }
}

/// Writes the answer to each text, one after another, and returns whether all was found.
fn write_each<W: Write>(
    alloc: Global,
    finder: &Finder<'_>,
    query: Query,
    texts: &[&[u8]],
    output: &mut Noted<W>,
) -> io::Result<bool> {
    let mut line = Vec::new(alloc);
    let mut buffer = Vec::new(alloc);
    let mut all = true;
    for text in texts {
        line.clear();
        all &= add_queried(alloc, &mut line, &mut buffer, finder, query, text)?;
        output.write_bytes(line.as_slice())?;
    }
    Ok(all)
}

/// Writes the answer to each text: what was looked up, or `none`. Returns whether all was found.
///
/// An answer is one line, but for `Asked::Prefixes`: then it is `none`, or a line of each key. A key is written with escapes, a tab and its value;
/// after the tab is `none` if `Asked::Pair` looked for an absent key. With `Spelling::Escaped` the
/// answer is that to the bytes that the text spells, and a line `none` if an escape is malformed.
/// `Asked::KeyOf` looks for a key in the order of the trie: a table finds each by a search, and a trie
/// is read up to it. A text that is no decimal number below 2^64 has none.
///
/// The answers are those of the trie's map, or of the pairs of the index. If the bytes are
/// malformed, it still returns, and the answers are unspecified; so are those of an index to
/// anything but `Asked::Value` and `Asked::Pair`, and of a table to anything but `Asked::KeyOf`. If
/// it fails, a beginning of the answers was written.
pub fn write_answers<W: Write>(
    alloc: Global,
    finder: &Finder<'_>,
    query: Query,
    texts: &[&[u8]],
    output: &mut Noted<W>,
) -> io::Result<bool> {
    match (finder, query.asked, query.spelling) {
        (Finder::Trie(trie), Asked::Value, Spelling::Plain) => {
            write_values(alloc, trie, texts, output)
        }
        (Finder::Trie(_), Asked::Value, Spelling::Escaped)
        | (
            Finder::Trie(_),
            Asked::Pair | Asked::Longest | Asked::LongestAt(_) | Asked::Prefixes(_) | Asked::KeyOf,
            Spelling::Plain | Spelling::Escaped,
        )
        | (Finder::Index(_) | Finder::Table(_), _, _) => write_each(
            alloc, finder, query, texts, output,
        ),
    }
}
