// Made from crates/zerotrie_making/src/error.rt by rust/make: edit that.
//! Why no file is made.

use crate::rstd::prelude::*;
use crate::zerotrie_making::others::OtherFile;
use crate::rstd::alloc::{AllocError, Global};
use crate::zerotrie_build::Refusal;
use crate::zerotrie_core::ZeroTrieBuildError;
use crate::zerotrie_index::ZeroIndexBuildError;
use crate::zerotrie_lines::{BadLine, ReadError};
use crate::zerotrie_sets::RuleError;

/// A key, and the number of its pair, from 1 on: that of its line, its record, or its member or item
/// of a JSON value. A header is counted.
#[derive(PartialEq, Eq, Debug)]
pub struct NumberedKey {
    pub number: usize,
    pub key: Vec<u8>,
}

/// Two keys that show why a build fails.
#[derive(PartialEq, Eq, Debug)]
pub struct Shown {
    /// Why: `Unsorted`, `DuplicateKey`, `NonAsciiError` or `MixedCase`.
    pub error: ZeroTrieBuildError,
    /// The first of the two.
    pub first: NumberedKey,
    /// The second. For `NonAsciiError`, which one key shows, it is the first again.
    pub second: NumberedKey,
}

/// A member or an item of a JSON value, or a line, that is no pair.
#[derive(PartialEq, Eq, Debug)]
pub enum NoPair {
    /// Of an object the member with this key: its value is not written as a whole number below
    /// 2^64.
    Member(Vec<u8>),
    /// Of a list the item with this number, from 1 on: it is no list of a key and such a number.
    Item(usize),
    /// The line with this number, from 1 on: it is no such list, and no object of the two.
    Line(usize),
}

/// Why no file is made.
///
/// ```
/// let read = ReadPlan {
///     source: Source::Json,
///     lower_case: false,
///     duplicates: Duplicates::Refuse,
/// };
/// let file = FilePlan { kind: None, sorted: false, form: FileForm::Sealed };
/// let input = Vec::from_slice(rt.alloc(), b"[\n  [\"ad\", 22}\n]\n")?;
/// assert_eq!(rt; make(rt.alloc(), Plan { read, file }, input), Err(MakeError::NotJson(2, 12)));
/// let read = ReadPlan { duplicates: Duplicates::Sum, ..read };
/// let input = Vec::from_slice(rt.alloc(), b"[[\"a\", 18446744073709551615], [\"a\", 1]]")?;
/// let key = NumberedKey { number: 2, key: Vec::from_slice(rt.alloc(), b"a")? };
/// assert_eq!(rt; make(rt.alloc(), Plan { read, file }, input), Err(MakeError::SumTooLarge(key)));
/// ```
#[derive(PartialEq, Eq, Debug)]
pub enum MakeError {
    /// The input is no text, but this other file.
    NotText(OtherFile),
    /// The line, or record of comma-separated fields, with this number is no pair, and why.
    Line(usize, BadLine),
    /// The input is no JSON value. At this line and column, both from 1 on, a token begins that can't
    /// be there, or the text ends too early. Columns are characters.
    NotJson(usize, usize),
    /// The input is a JSON value, and neither an object nor a list.
    NotPairs,
    /// The input is a JSON object or list or lines of JSON, and this member, item or line is the first
    /// that is no pair.
    NotPair(NoPair),
    /// The build fails, and these keys show why.
    Keys(Shown),
    /// The values of pairs that have one key are to be added, and this is the first pair up to which
    /// those of its key have a sum of 2^64 or more.
    SumTooLarge(NumberedKey),
    /// The build of a trie fails though no key is at fault: `CapacityExceeded` or
    /// `CouldNotSolvePerfectHash`.
    Refused(ZeroTrieBuildError),
    /// The build of an index fails though no key is at fault: `Crowded` or `CapacityExceeded`.
    IndexRefused(ZeroIndexBuildError),
    /// An allocation failed.
    OutOfMemory,
}

impl From<AllocError> for MakeError {
    fn from(_: AllocError) -> Self {
        MakeError::OutOfMemory
    }
}

/// Why no file is made of what a combination takes of tries.
#[derive(PartialEq, Eq, Debug)]
pub enum CombinationError {
    /// This key is taken, and gets no value: why.
    NoValue(RuleError, Vec<u8>),
    /// The build of the pairs fails, or an allocation failed.
    NotMade(MakeError),
}

impl From<MakeError> for CombinationError {
    fn from(why: MakeError) -> Self {
        CombinationError::NotMade(why)
    }
}

impl From<AllocError> for CombinationError {
    fn from(_: AllocError) -> Self {
        CombinationError::NotMade(MakeError::OutOfMemory)
    }
}

impl From<ReadError> for MakeError {
    fn from(why: ReadError) -> Self {
        match why {
            ReadError::Line(number, bad) => MakeError::Line(number, bad),
            ReadError::OutOfMemory => MakeError::OutOfMemory,
        }
    }
}

/// Returns the key with the number that it has behind so many rows. `None` if that is 2^64 or more.
fn behind(rows: usize, key: NumberedKey) -> Option<NumberedKey> {
    Some(NumberedKey {
        number: rows.checked_add(key.number)?,
        key: key.key,
    })
}

/// Returns the keys with the numbers that they have behind so many rows.
fn shown_behind(rows: usize, shown: Shown) -> Option<Shown> {
    Some(Shown {
        first: behind(rows, shown.first)?,
        second: behind(rows, shown.second)?,
        error: shown.error,
    })
}

/// Returns the error with the numbers that pairs have behind so many rows. It has those among the
/// pairs.
pub(in crate::zerotrie_making) fn error_behind(rows: usize, error: MakeError) -> MakeError {
    match error {
        MakeError::Keys(shown) => match shown_behind(rows, shown) {
            Some(shown) => MakeError::Keys(shown),
            None => MakeError::OutOfMemory,
        },
        MakeError::SumTooLarge(key) => match behind(rows, key) {
            Some(key) => MakeError::SumTooLarge(key),
            None => MakeError::OutOfMemory,
        },
        other => other,
    }
}

/// Returns the number of the pair at this index: one that is given, or else one more.
fn number_of(numbers: Option<&[usize]>, index: usize) -> usize {
    match numbers {
        Some(numbers) => numbers[index],
        None => index + 1,
    }
}

/// Returns the key of an item, with the number of its pair.
pub(in crate::zerotrie_making) fn numbered(
    alloc: Global,
    numbers: Option<&[usize]>,
    items: &[(&[u8], usize)],
    index: usize,
) -> Result<NumberedKey, AllocError> {
    let (key, _) = items[index];
    Ok(NumberedKey {
        number: number_of(numbers, index),
        key: Vec::from_slice(alloc, key)?,
    })
}

/// Returns the keys that show a refusal, with the numbers of their pairs.
pub(in crate::zerotrie_making) fn show(
    alloc: Global,
    numbers: Option<&[usize]>,
    items: &[(&[u8], usize)],
    refusal: Refusal,
) -> Result<Shown, AllocError> {
    Ok(Shown {
        first: numbered(alloc, numbers, items, refusal.first)?,
        second: numbered(alloc, numbers, items, refusal.second)?,
        error: refusal.error,
    })
}
