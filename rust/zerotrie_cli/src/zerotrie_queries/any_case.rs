// Made from crates/zerotrie_queries/src/any_case.rt by rust/make: edit that.
//! A trie that ignores case, with its keys in the case that another one has them in.

use crate::zerotrie_queries::sorted::sorted_pairs;
use crate::rstd::alloc::{AllocError, Global};
use crate::zerotrie_core::{PairStream, Trie, TrieKind, TrieRef};
use crate::zerotrie_lines::Table;
use crate::zerotrie_sets::laws::combined_are_maps;
use crate::zerotrie_sets::{Combined, Keep, Operation, SortedSlice};

/// Returns whether keys that differ only in the case of letters are one key to both kinds.
pub fn ignore_case(first: TrieKind, second: TrieKind) -> bool {
    matches!((first, second), (TrieKind::Ignore, TrieKind::Ignore))
}

/// Takes all pairs of a stream.
pub fn collect<S: PairStream>(alloc: Global, mut stream: S) -> Result<Table, AllocError> {
    let mut table = Table::new(alloc);
    while stream.advance()? {
        table.push(stream.key(), stream.value())?;
    }
    Ok(table)
}

/// Lists pairs whose keys ascend.
pub fn of_sorted<'a, 'k>(pairs: &'a [(&'k [u8], usize)]) -> SortedSlice<'a, 'k> {
    match SortedSlice::new(pairs) {
        Some(stream) => stream,
        None => unreachable!(),
    }
}

/// Returns what an operation has for a key of its first map, whose value is given, if a look-up in
/// the second one finds this.
fn value_by(operation: Operation, value: usize, found: Option<usize>) -> Option<usize> {
    match operation {
        Operation::Union(Keep::First) => Some(value),
        Operation::Union(Keep::Last) => found.or(Some(value)),
        Operation::Intersection(Keep::First) => found.and(Some(value)),
        Operation::Intersection(Keep::Last) => found,
        Operation::Difference | Operation::SymmetricDifference => match found {
            None => Some(value),
            Some(_value) => None,
        },
    }
}

/// Adds a pair if the key has a value.
fn push_some(table: &mut Table, key: &[u8], value: Option<usize>) -> Result<(), AllocError> {
    match value {
        Some(value) => table.push(key, value),
        None => Ok(()),
    }
}

/// Takes the keys of a stream for which an operation has a value, of theirs and of what a look-up in a
/// trie finds.
fn look_up_each<S: PairStream>(
    alloc: Global,
    operation: Operation,
    mut pairs: S,
    other: &TrieRef<'_>,
) -> Result<Table, AllocError> {
    let mut table = Table::new(alloc);
    while pairs.advance()? {
        let value = value_by(operation, pairs.value(), other.get(pairs.key()));
        push_some(&mut table, pairs.key(), value)?;
    }
    Ok(table)
}

/// Returns the keys of a trie for which an operation has a value, of theirs and of what a look-up in
/// another trie finds, in the order of bytes.
pub fn look_up_all(
    alloc: Global,
    operation: Operation,
    trie: &TrieRef<'_>,
    other: &TrieRef<'_>,
) -> Result<Table, AllocError> {
    let pairs = sorted_pairs(alloc, trie)?;
    look_up_each(alloc, operation, pairs, other)
}

/// Returns the union of two tables whose keys ascend.
fn unite(alloc: Global, first: &Table, second: &Table) -> Result<Table, AllocError> {
    let ones = first.items(alloc)?;
    let twos = second.items(alloc)?;
    let one = of_sorted(ones.as_slice());
    let two = of_sorted(twos.as_slice());
    collect(
        alloc,
        Combined::new(one, two, Operation::Union(Keep::First)),
    )
}

/// Returns the pairs of a second trie in the order of bytes, with each key as the first trie has it,
/// if a look-up finds it there. The stream lists the second trie's pairs, with keys in any case.
pub fn recased<S: PairStream>(
    alloc: Global,
    first: &TrieRef<'_>,
    second: &TrieRef<'_>,
    pairs: S,
) -> Result<Table, AllocError> {
    combined_are_maps();
    let found = look_up_all(alloc, Operation::Intersection(Keep::Last), first, second)?;
    let others = look_up_each(alloc, Operation::Difference, pairs, first)?;
    unite(alloc, &found, &others)
}
