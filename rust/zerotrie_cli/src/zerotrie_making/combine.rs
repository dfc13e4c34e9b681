// Made from crates/zerotrie_making/src/combine.rt by rust/make: edit that.
//! Makes the file of a trie or an index from the tries of others.

use crate::rstd::prelude::*;
use crate::zerotrie_making::error::CombinationError;
use crate::zerotrie_making::file::make_of;
use crate::zerotrie_making::plan::{Combination, FilePlan, Made};
use crate::rstd::alloc::{AllocError, Global};
use crate::zerotrie_core::{PairStream, TrieKind, TrieRef};
use crate::zerotrie_lines::Table;
use crate::zerotrie_queries::{collect, look_up_all, of_sorted, recased, sorted_pairs};
use crate::zerotrie_search::laws::sorted_listing_ascends;
use crate::zerotrie_sets::laws::{row_errors_are_of_keys, selections_are_of_maps};
use crate::zerotrie_sets::{Keep, MergeAll, Operation, Rule, Selection, SortedSlice, SortedTrie};

/// Adds the current key of a merge, if it is taken.
fn add_taken<S: PairStream>(
    alloc: Global,
    combination: Combination,
    rows: &MergeAll<S>,
    table: &mut Table,
) -> Result<(), CombinationError> {
    match rows.selected(combination.selection, combination.rule) {
        Ok(Some(value)) => Ok(table.push(rows.key(), value)?),
        Ok(None) => Ok(()),
        Err(why) => Err(CombinationError::NoValue(why, Vec::from_slice(alloc, rows.key())?)),
    }
}

/// Merges streams whose keys ascend, and returns the pairs that are taken.
fn merged<S: PairStream>(
    alloc: Global,
    combination: Combination,
    streams: Vec<S>,
) -> Result<Table, CombinationError> {
    selections_are_of_maps();
    row_errors_are_of_keys();
    let mut rows = MergeAll::new(alloc, streams)?;
    let mut table = Table::new(alloc);
    while rows.advance()? {
        add_taken(alloc, combination, &rows, &mut table)?;
    }
    Ok(table)
}

/// Lists each trie in the order of bytes.
fn streams_of<'t>(
    alloc: Global,
    tries: &'t [TrieRef<'_>],
) -> Result<Vec<SortedTrie<'t, 't>>, AllocError> {
    let mut streams = Vec::with_capacity(alloc, tries.len())?;
    for trie in tries {
        streams.push(sorted_pairs(alloc, trie)?)?;
    }
    Ok(streams)
}

/// Returns pairs of a trie, with keys in any case, in the case of a trie before it.
fn in_case_of(
    alloc: Global,
    before: &TrieRef<'_>,
    trie: &TrieRef<'_>,
    table: &Table,
) -> Result<Table, AllocError> {
    let items = table.items(alloc)?;
    recased(alloc, before, trie, of_sorted(items.as_slice()))
}

/// Returns the pairs of the trie with this number, each key in the case of the first trie that has
/// it.
fn in_first_case(alloc: Global, tries: &[TrieRef<'_>], at: usize) -> Result<Table, AllocError> {
    let mut table = collect(alloc, sorted_pairs(alloc, &tries[at])?)?;
    let mut before = at;
    while before > 0 {
        before -= 1;
        table = in_case_of(alloc, &tries[before], &tries[at], &table)?;
    }
    Ok(table)
}

/// Returns the pairs of each trie, each key in the case of the first trie that has it.
fn in_first_cases(alloc: Global, tries: &[TrieRef<'_>]) -> Result<Vec<Table>, AllocError> {
    let mut tables = Vec::with_capacity(alloc, tries.len())?;
    for at in 0..tries.len() {
        tables.push(in_first_case(alloc, tries, at)?)?;
    }
    Ok(tables)
}

/// Returns the pairs of each table.
fn items_of<'t>(
    alloc: Global,
    tables: &'t [Table],
) -> Result<Vec<Vec<(&'t [u8], usize)>>, AllocError> {
    let mut items = Vec::with_capacity(alloc, tables.len())?;
    for table in tables {
        items.push(table.items(alloc)?)?;
    }
    Ok(items)
}

/// Lists pairs whose keys ascend.
fn slices_of<'i, 'k>(
    alloc: Global,
    items: &'i [Vec<(&'k [u8], usize)>],
) -> Result<Vec<SortedSlice<'i, 'k>>, AllocError> {
    let mut streams = Vec::with_capacity(alloc, items.len())?;
    for pairs in items {
        streams.push(of_sorted(pairs.as_slice()))?;
    }
    Ok(streams)
}

/// Combines the pairs of tries that ignore case.
fn combine_in_any_case(
    alloc: Global,
    combination: Combination,
    tries: &[TrieRef<'_>],
) -> Result<Table, CombinationError> {
    let tables = in_first_cases(alloc, tries)?;
    let items = items_of(alloc, tables.as_slice())?;
    let streams = slices_of(alloc, items.as_slice())?;
    merged(alloc, combination, streams)
}

/// One trie has few keys beside another if it has at most one byte for this many of the other's.
const MANY: usize = 16;

/// Returns whether a trie has few keys beside another one, which finds exact keys. Then look-ups
/// cost less than a listing of both.
fn are_few(trie: &TrieRef<'_>, other: &TrieRef<'_>) -> bool {
    trie.bytes.len() <= other.bytes.len() / MANY && !other.kind.options().ignore_case()
}

/// Returns the operation on two tries that takes the same, and only keys that the first one has.
fn operation_of(selection: Selection, rule: Rule) -> Option<Operation> {
    match (selection, rule) {
        (Selection::Intersection, Rule::First) => Some(Operation::Intersection(Keep::First)),
        (Selection::Intersection, Rule::Last) => Some(Operation::Intersection(Keep::Last)),
        (Selection::Difference, _) => Some(Operation::Difference),
        _ => None,
    }
}

/// Returns the same with the tries in each other's place, if that takes only keys that the second
/// trie has.
fn turned(operation: Operation) -> Option<Operation> {
    match operation {
        Operation::Intersection(Keep::First) => Some(Operation::Intersection(Keep::Last)),
        Operation::Intersection(Keep::Last) => Some(Operation::Intersection(Keep::First)),
        Operation::Union(_) | Operation::Difference | Operation::SymmetricDifference => None,
    }
}

/// Returns what a combination takes of two tries, if one of them has few keys, which are then
/// looked up in the other. `None` if neither has, or the combination takes other keys.
fn look_up_few_of_two(
    alloc: Global,
    combination: Combination,
    first: &TrieRef<'_>,
    second: &TrieRef<'_>,
) -> Result<Option<Table>, AllocError> {
    sorted_listing_ascends();
    let Some(operation) = operation_of(combination.selection, combination.rule) else {
        return Ok(None);
    };
    if are_few(first, second) {
        return Ok(Some(look_up_all(alloc, operation, first, second)?));
    }
    match turned(operation) {
        Some(turned) if are_few(second, first) => {
            Ok(Some(look_up_all(alloc, turned, second, first)?))
        }
        _ => Ok(None),
    }
}

/// Returns what `look_up_few_of_two` does of tries, if they are two.
fn look_up_few(
    alloc: Global,
    combination: Combination,
    tries: &[TrieRef<'_>],
) -> Result<Option<Table>, AllocError> {
    match tries {
        [first, second] => look_up_few_of_two(alloc, combination, first, second),
        _ => Ok(None),
    }
}

/// Returns whether all tries ignore case.
fn all_ignore_case(tries: &[TrieRef<'_>]) -> bool {
    for trie in tries {
        if !trie.kind.options().ignore_case() {
            return false;
        }
    }
    true
}

/// Returns the pairs that a combination takes of tries.
fn combine(
    alloc: Global,
    combination: Combination,
    tries: &[TrieRef<'_>],
) -> Result<Table, CombinationError> {
    if all_ignore_case(tries) {
        return combine_in_any_case(alloc, combination, tries);
    }
    match look_up_few(alloc, combination, tries)? {
        Some(table) => Ok(table),
        None => merged(alloc, combination, streams_of(alloc, tries)?),
    }
}

/// Returns the kind that is asked for: the one that is named, or else the one that all tries have.
/// `None` if theirs differ.
pub fn kind_kept(named: Option<TrieKind>, tries: &[TrieRef<'_>]) -> Option<TrieKind> {
    if named.is_some() {
        return named;
    }
    let (first, others) = tries.split_first()?;
    for trie in others {
        if trie.kind.tag() != first.kind.tag() {
            return None;
        }
    }
    Some(first.kind)
}

/// Makes the file of the union, the intersection or a difference of tries, of any kinds.
///
/// ```
/// use zerotrie_sets::Selection;
///
/// // the keys "a" and "b", and the keys "b" and "c"
/// let tries = [
///     TrieRef { kind: TrieKind::Simple, bytes: b"\xC2ab\x01\x81\x82" },
///     TrieRef { kind: TrieKind::Hash, bytes: b"\xC2bc\x01\x83\x84" },
/// ];
/// let union = Combination {
///     selection: Selection::Union,
///     rule: Rule::Sum,
///     kind: None,
///     form: FileForm::Bare,
/// };
/// let made = make_combined(rt.alloc(), union, &tries).map_err(|_| "refused")?;
/// assert_eq!(rt; (made.kind, made.keys), (TrieKind::Simple, 3));
/// let trie = TrieRef { kind: made.kind, bytes: made.file.as_slice() };
/// assert_eq!(rt; (trie.get(b"a"), trie.get(b"b"), trie.get(b"c")), (Some(1), Some(5), Some(4)));
/// let minus = Combination { selection: Selection::Difference, ..union };
/// let made = make_combined(rt.alloc(), minus, &tries).map_err(|_| "refused")?;
/// assert_eq!(rt; made.file.as_slice(), b"a\x81".as_slice());
/// let refuse = Combination { rule: Rule::Refuse, ..union };
/// let key = Vec::from_slice(rt.alloc(), b"b")?;
/// let why = CombinationError::NoValue(RuleError::SeveralValues, key);
/// assert_eq!(rt; make_combined(rt.alloc(), refuse, &tries), Err(why));
/// // the key "Ab", and the keys "aB" and "c", which ignore case
/// let tries = [
///     TrieRef { kind: TrieKind::Ignore, bytes: b"Ab\x81" },
///     TrieRef { kind: TrieKind::Ignore, bytes: b"\xC2ac\x02B\x85\x86" },
/// ];
/// let first = Combination { rule: Rule::First, ..union };
/// let made = make_combined(rt.alloc(), first, &tries).map_err(|_| "refused")?;
/// assert_eq!(rt; made.file.as_slice(), b"\xC2Ac\x02b\x81\x86".as_slice());
/// ```
///
/// The kind is the one that is named, or else that of all tries. If theirs differ, it is the one
/// that a build of the pairs takes. Keys are equal if their bytes are; if all tries ignore case,
/// they are if a look-up takes them as one, and are then as the first trie that has them has them.
/// In the kind that ignores case a build is an error if keys that begin alike differ in the case of
/// a letter.
///
/// If one of two tries has at most a sixteenth of the other's bytes, an intersection that keeps the
/// first or the last value looks the keys of the small one up in the other, which is not listed. A
/// difference does so if the first trie is the small one. That is, if the other trie does not
/// ignore case. Else a step compares a key of each trie. Tries that ignore case are listed once for
/// each one before them.
///
/// The error is `NoValue` with a key that is taken and gets no value by the rule; `Keys` if keys
/// show why a build of the pairs fails, `Refused` or `IndexRefused` if it fails and none do, and
/// `OutOfMemory`. The numbers of keys are those of their pairs in the order of bytes.
pub fn make_combined(
    alloc: Global,
    combination: Combination,
    tries: &[TrieRef<'_>],
) -> Result<Made, CombinationError> {
    let table = combine(alloc, combination, tries)?;
    let items = table.items(alloc)?;
    let plan = FilePlan {
        kind: kind_kept(combination.kind, tries),
        sorted: false,
        form: combination.form,
    };
    Ok(make_of(alloc, plan, None, items.as_slice())?)
}
