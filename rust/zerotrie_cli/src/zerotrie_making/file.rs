// Made from crates/zerotrie_making/src/file.rt by rust/make: edit that.
//! Makes the file of a trie or an index from the bytes of an input.

use crate::rstd::prelude::*;
use crate::zerotrie_making::duplicates::{Duplicates, Kept, firsts, lasts, merged};
use crate::zerotrie_making::error::{MakeError, error_behind, show};
use crate::zerotrie_making::input::{items_in, read_input};
use crate::zerotrie_making::others::other_file;
use crate::zerotrie_making::plan::{FileForm, FilePlan, Made, Plan};
use crate::zerotrie_making::tries::{bytes_of, index_bytes_of, kind_for, why_refused, why_unindexed};
use crate::rstd::alloc::{AllocError, Global};
use crate::zerotrie_core::{TrieKind, ZeroTrieBuildError};
use crate::zerotrie_index::ZeroIndexBuildError;
use crate::zerotrie_sealed::{seal, seal_index};
use crate::zerotrie_sets::Rule;

/// Returns these bytes with the number of the kind in front.
fn tag(kind: TrieKind, bytes: Vec<u8>) -> Result<Vec<u8>, AllocError> {
    let mut file = bytes;
    // a doubled capacity would be a second copy of the trie
    file.reserve_exact(1)?;
    file.insert(0, kind.tag())?;
    Ok(file)
}

/// Returns the file of a trie or an index with these bytes, in this form.
pub(in crate::zerotrie_making) fn file_of(
    alloc: Global,
    form: FileForm,
    kind: TrieKind,
    bytes: Vec<u8>,
) -> Result<Vec<u8>, AllocError> {
    match form {
        FileForm::Sealed => seal(alloc, kind, bytes.as_slice()),
        FileForm::Tagged => tag(kind, bytes),
        FileForm::Bare => Ok(bytes),
        FileForm::Index => seal_index(alloc, bytes.as_slice()),
    }
}

/// Explains an error of a build of a trie: with the keys that show it, if any do. Without numbers each
/// pair has that of its place.
fn explain(
    alloc: Global,
    kind: TrieKind,
    sorted: bool,
    numbers: Option<&[usize]>,
    items: &[(&[u8], usize)],
    error: ZeroTrieBuildError,
) -> Result<MakeError, AllocError> {
    if error == ZeroTrieBuildError::OutOfMemory {
        return Ok(MakeError::OutOfMemory);
    }
    match why_refused(alloc, kind, sorted, items)? {
        Some(refusal) => Ok(MakeError::Keys(show(alloc, numbers, items, refusal)?)),
        None => Ok(MakeError::Refused(error)),
    }
}

/// Builds a trie of the pairs, or explains why there is none.
fn trie_of(
    alloc: Global,
    kind: TrieKind,
    sorted: bool,
    numbers: Option<&[usize]>,
    items: &[(&[u8], usize)],
) -> Result<Vec<u8>, MakeError> {
    match bytes_of(alloc, kind, sorted, items) {
        Ok(bytes) => Ok(bytes),
        Err(error) => Err(explain(alloc, kind, sorted, numbers, items, error)?),
    }
}

/// Explains an error of a build of an index, as `explain` does of a trie.
fn explain_index(
    alloc: Global,
    sorted: bool,
    numbers: Option<&[usize]>,
    items: &[(&[u8], usize)],
    error: ZeroIndexBuildError,
) -> Result<MakeError, AllocError> {
    if error == ZeroIndexBuildError::OutOfMemory {
        return Ok(MakeError::OutOfMemory);
    }
    match why_unindexed(alloc, sorted, items)? {
        Some(refusal) => Ok(MakeError::Keys(show(alloc, numbers, items, refusal)?)),
        None => Ok(MakeError::IndexRefused(error)),
    }
}

/// Builds an index of the pairs, or explains why there is none.
fn index_of(
    alloc: Global,
    sorted: bool,
    numbers: Option<&[usize]>,
    items: &[(&[u8], usize)],
) -> Result<Vec<u8>, MakeError> {
    match index_bytes_of(alloc, sorted, items) {
        Ok(bytes) => Ok(bytes),
        Err(error) => Err(explain_index(alloc, sorted, numbers, items, error)?),
    }
}

/// Builds what a file of this form has: a trie of the kind, or an index.
fn build_of(
    alloc: Global,
    form: FileForm,
    kind: TrieKind,
    sorted: bool,
    numbers: Option<&[usize]>,
    items: &[(&[u8], usize)],
) -> Result<Vec<u8>, MakeError> {
    match form {
        FileForm::Sealed | FileForm::Tagged | FileForm::Bare => {
            trie_of(alloc, kind, sorted, numbers, items)
        }
        FileForm::Index => index_of(alloc, sorted, numbers, items),
    }
}

/// Makes the file of the pairs, and counts them.
pub(in crate::zerotrie_making) fn make_of(
    alloc: Global,
    plan: FilePlan,
    numbers: Option<&[usize]>,
    items: &[(&[u8], usize)],
) -> Result<Made, MakeError> {
    let kind = kind_for(plan.kind, items);
    let bytes = build_of(alloc, plan.form, kind, plan.sorted, numbers, items)?;
    Ok(Made {
        file: file_of(alloc, plan.form, kind, bytes)?,
        kind,
        keys: items.len(),
    })
}

/// Makes the file of pairs that are kept.
fn make_kept(alloc: Global, plan: FilePlan, kept: Kept<'_>) -> Result<Made, MakeError> {
    make_of(
        alloc,
        plan,
        Some(kept.numbers.as_slice()),
        kept.items.as_slice(),
    )
}

/// Makes the file of those of the pairs that are kept. An error has the numbers among the pairs.
fn make_numbered(alloc: Global, plan: Plan<'_>, items: &[(&[u8], usize)]) -> Result<Made, MakeError> {
    match plan.read.duplicates {
        Duplicates::Refuse => make_of(alloc, plan.file, None, items),
        Duplicates::First => make_kept(alloc, plan.file, firsts(alloc, items)?),
        Duplicates::Last => make_kept(alloc, plan.file, lasts(alloc, items)?),
        Duplicates::Sum => make_kept(alloc, plan.file, merged(alloc, Rule::Sum, items)?),
        Duplicates::Min => make_kept(alloc, plan.file, merged(alloc, Rule::Min, items)?),
        Duplicates::Max => make_kept(alloc, plan.file, merged(alloc, Rule::Max, items)?),
    }
}

/// Makes the file of those of the pairs that are kept. An error has their numbers in the input.
fn make_from(alloc: Global, plan: Plan<'_>, items: &[(&[u8], usize)]) -> Result<Made, MakeError> {
    match make_numbered(alloc, plan, items) {
        Ok(made) => Ok(made),
        Err(error) => Err(error_behind(plan.read.source.rows_before(), error)),
    }
}

/// Makes the file of the pairs of an input that is no other file. It takes the input. If keys must be
/// copied from it, it is freed before the build.
fn make_text(alloc: Global, plan: Plan<'_>, input: Vec<u8>) -> Result<Made, MakeError> {
    if let Some(items) = items_in(alloc, plan.read, input.as_slice())? {
        return make_from(alloc, plan, items.as_slice());
    }
    let table = read_input(alloc, plan.read, input.as_slice())?;
    drop(input);
    let items = table.items(alloc)?;
    make_from(alloc, plan, items.as_slice())
}

/// Makes the file of the pairs of an input, and counts its keys.
///
/// ```
/// let read = ReadPlan {
///     source: Source::Text(TSV),
///     lower_case: false,
///     duplicates: Duplicates::Refuse,
/// };
/// let file = FilePlan { kind: None, sorted: false, form: FileForm::Tagged };
/// let input = Vec::from_slice(rt.alloc(), b"adef\t33\nad\t22\n")?;
/// let made = make(rt.alloc(), Plan { read, file }, input).map_err(|_| "refused")?;
/// assert_eq!(rt; made.file.as_slice(), b"\x00ad\x90\x06ef\x90\x11".as_slice());
/// assert_eq!(rt; made.keys, 2);
/// let summed = ReadPlan { duplicates: Duplicates::Sum, ..read };
/// let input = Vec::from_slice(rt.alloc(), b"ad\t2\nadef\t33\nad\t20\n")?;
/// let made = make(rt.alloc(), Plan { read: summed, file }, input).map_err(|_| "refused")?;
/// assert_eq!(rt; made.file.as_slice(), b"\x00ad\x90\x06ef\x90\x11".as_slice());
/// let csv = TextForm { format: Format::Csv, header: Header::Present, ..TSV };
/// let source = Source::Text(csv);
/// let input = Vec::from_slice(rt.alloc(), b"key,value\nad,22\nadef,33\n")?;
/// let plan = Plan { read: ReadPlan { source, ..read }, file };
/// let made = make(rt.alloc(), plan, input).map_err(|_| "refused")?;
/// assert_eq!(rt; made.file.as_slice(), b"\x00ad\x90\x06ef\x90\x11".as_slice());
/// let source = Source::Text(TextForm { format: Format::Lines, ..TSV });
/// let read = ReadPlan { source, ..read };
/// let input = Vec::from_slice(rt.alloc(), b"\xFF\xFEa\0\n\0")?;
/// let why = MakeError::NotText(OtherFile::Utf16);
/// assert_eq!(rt; make(rt.alloc(), Plan { read, file }, input), Err(why));
/// ```
///
/// It takes the input. If keys must be copied from it, it is freed before the build. The error is
/// `NotText` if the input is another file, `Line`, `NotJson`, `NotPairs` or `NotPair` if it is no
/// pairs, `SumTooLarge` if the plan adds values and a sum is 2^64 or more, `Keys` if keys show why a
/// build of the pairs fails, `Refused` or `IndexRefused` if it fails and none do, and `OutOfMemory`.
pub fn make(alloc: Global, plan: Plan<'_>, input: Vec<u8>) -> Result<Made, MakeError> {
    match other_file(input.as_slice()) {
        Some(other) => Err(MakeError::NotText(other)),
        None => make_text(alloc, plan, input),
    }
}
