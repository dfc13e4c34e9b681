// Made from crates/zerotrie_queries/src/diff.rt by rust/make: edit that.
//! What changed from one trie to another, printed as it is found.

use crate::rstd::prelude::*;
use crate::zerotrie_queries::any_case::{ignore_case, of_sorted, recased};
use crate::zerotrie_queries::sorted::sorted_pairs;
use crate::rstd::alloc::{AllocError, Global};
use crate::rstd::io;
use crate::rstd::io::Write;
use crate::zerotrie_core::{PairStream, TrieRef};
use crate::zerotrie_files::Noted;
use crate::zerotrie_lines::{write_escaped, write_number, write_pair};
use crate::zerotrie_search::laws::sorted_listing_ascends;
use crate::zerotrie_sets::laws::{combined_are_maps, diffs_are_of_maps, no_change};
use crate::zerotrie_sets::{Change, Diff};

/// The least number of bytes that one write has, but for the last.
const BLOCK: usize = 1 << 16;

/// Adds the line of a key that is in both tries with two values.
fn add_changed(line: &mut Vec<u8>, key: &[u8], old: usize, new: usize) -> Result<(), AllocError> {
    line.extend_from_slice(b"~\t")?;
    write_escaped(line, key)?;
    line.push(b'\t')?;
    write_number(line, old)?;
    line.push(b'\t')?;
    write_number(line, new)?;
    line.push(b'\n')?;
    Ok(())
}

/// Adds the line of a key that one trie alone has: a sign and a tab, the key and its value.
fn add_signed(line: &mut Vec<u8>, sign: &[u8], key: &[u8], value: usize) -> Result<(), AllocError> {
    line.extend_from_slice(sign)?;
    write_pair(line, key, value)
}

fn add_change(line: &mut Vec<u8>, key: &[u8], change: Change) -> Result<(), AllocError> {
    match change {
        Change::Added(value) => add_signed(line, b"+\t", key, value),
        Change::Removed(value) => add_signed(line, b"-\t", key, value),
        Change::Changed(old, new) => add_changed(line, key, old, new),
    }
}

/// Fills an empty buffer with the lines of the next keys that changed, up to a block, and returns
/// whether more may follow.
fn add_block<S: PairStream, T: PairStream>(
    lines: &mut Vec<u8>,
    diff: &mut Diff<S, T>,
) -> Result<bool, AllocError> {
    while lines.len() < BLOCK {
        if !diff.advance()? {
            return Ok(false);
        }
        add_change(lines, diff.key(), diff.change())?;
    }
    Ok(true)
}

/// Writes the lines of the keys to come that changed, many lines at once, and returns whether there
/// are none. If it fails, a beginning of them was written.
fn write_changes<S: PairStream, T: PairStream, W: Write>(
    alloc: Global,
    diff: &mut Diff<S, T>,
    output: &mut Noted<W>,
) -> io::Result<bool> {
    let mut lines = Vec::new(alloc);
    let mut same = true;
    loop {
        let more = add_block(&mut lines, diff)?;
        same &= lines.is_empty();
        output.write_bytes(lines.as_slice())?;
        if !more {
            return Ok(same);
        }
        lines.clear();
    }
}

/// Writes a line for each key that changed from one listing to another, and returns whether they have
/// the same pairs. If it fails, a beginning of the lines was written.
fn write_merged<S: PairStream, T: PairStream, W: Write>(
    alloc: Global,
    first: S,
    second: T,
    output: &mut Noted<W>,
) -> io::Result<bool> {
    diffs_are_of_maps();
    no_change();
    let mut diff = Diff::new(first, second);
    write_changes(alloc, &mut diff, output)
}

/// Writes a line for each key that changed from one trie to another, in the order of the keys'
/// bytes, and returns whether they have the same pairs. The kinds of the two may differ.
///
/// A line is `+`, the key and its value if only the new trie has the key; `-`, the key and its
/// value if only the old one has it; or `~`, the key, and the old and the new value. Tabs are
/// between, and keys are written with escapes. If both tries ignore case, so does this: a key that
/// both have is written as the old trie has it.
///
/// ```
/// let old = TrieRef { kind: TrieKind::Simple, bytes: b"a\x81" };
/// let new = TrieRef { kind: TrieKind::Hash, bytes: b"a\x85b\x86" };
/// let mut output = Noted::new(Vec::new(rt.alloc()));
/// assert!(rt; !write_diff(rt.alloc(), &old, &new, &mut output)?);
/// assert_eq!(rt; output.get_ref().as_slice(), b"~\ta\t1\t5\n+\tab\t6\n".as_slice());
/// let old = TrieRef { kind: TrieKind::Ignore, bytes: b"Ab\x81" };
/// let new = TrieRef { kind: TrieKind::Ignore, bytes: b"aB\x85" };
/// let mut output = Noted::new(Vec::new(rt.alloc()));
/// assert!(rt; !write_diff(rt.alloc(), &old, &new, &mut output)?);
/// assert_eq!(rt; output.get_ref().as_slice(), b"~\tAb\t1\t5\n".as_slice());
/// ```
///
/// It allocates for the longest keys alone, and for the new trie's pairs if both ignore case. If it
/// fails, a beginning of the lines was written.
pub fn write_diff<W: Write>(
    alloc: Global,
    old: &TrieRef<'_>,
    new: &TrieRef<'_>,
    output: &mut Noted<W>,
) -> io::Result<bool> {
    sorted_listing_ascends();
    combined_are_maps();
    diffs_are_of_maps();
    let first = sorted_pairs(alloc, old)?;
    let second = sorted_pairs(alloc, new)?;
    if ignore_case(old.kind, new.kind) {
        let table = recased(alloc, old, new, second)?;
        let items = table.items(alloc)?;
        write_merged(alloc, first, of_sorted(items.as_slice()), output)
    } else {
        write_merged(alloc, first, second, output)
    }
}
