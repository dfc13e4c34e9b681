// Made from crates/zerotrie_build/src/refusal.rt by rust/make: edit that.
//! Which keys show why a build returns an error.

use crate::zerotrie_build::items::item_at;
use crate::zerotrie_build::order::{common_front_len, first_foreign, first_unordered};
use crate::zerotrie_build::sort::{KeyPrefix, items_at, sorted_prefixes};
use crate::rstd::alloc::{AllocError, Global};
use crate::rstd::fmt;
use crate::zerotrie_base::{Simple, TrieKey, ZeroTrieBuildError, ZeroTrieWithOptions, folded};

/// Which keys show why a build returns an error, by their numbers, counted from 0 in the order in
/// which they are given.
///
/// ```
/// # use zerotrie::{rstd::examples::*, zerotrie_build::*, zerotrie_base::*};
/// let refusal = why_slice_refused::<Simple, _>(&[("to", 1), ("in", 2)]).ok_or("taken")?;
/// let text = format!("{refusal}");
/// assert_eq!(text.as_str(), "key 1 is not above key 0: sort the keys by their bytes, each once");
/// # Ok::<(), Fail>(())
/// ```
#[derive(Clone, PartialEq, Eq, Debug)]
#[cfg_attr(not(feature = "__internal"), non_exhaustive)]
pub struct Refusal {
    /// Why: `Unsorted`, `DuplicateKey`, `NonAsciiError` or `MixedCase`.
    pub error: ZeroTrieBuildError,
    /// The number of the key, or of the first of two.
    pub first: usize,
    /// The number of the second key. For `NonAsciiError`, which one key shows, it is that of the
    /// first.
    pub second: usize,
}

impl Refusal {
    /// Returns the error with the numbers of the keys that show it.
    fn new(error: ZeroTrieBuildError, first: usize, second: usize) -> Self {
        Refusal {
            error,
            first,
            second,
        }
    }

    /// Returns the error that two keys show, whichever is the first.
    fn between(error: ZeroTrieBuildError, one: usize, other: usize) -> Self {
        Refusal::new(error, one.min(other), one.max(other))
    }
}

/// What two keys do that the kind without case cannot have together.
const ALIKE: &str = "begin alike but for the case of a letter";

impl fmt::Display for Refusal {
    fn fmt(&self, f: &mut fmt::Formatter<'_>) -> fmt::Result {
        let (a, b) = (self.first, self.second);
        match &self.error {
            ZeroTrieBuildError::Unsorted => write!(f, "key {b} is not above key {a}")?,
            ZeroTrieBuildError::DuplicateKey => write!(f, "keys {a} and {b} are the same")?,
            ZeroTrieBuildError::NonAsciiError => write!(f, "key {a} is not ASCII")?,
            ZeroTrieBuildError::MixedCase => write!(f, "keys {a} and {b} {ALIKE}")?,
            other => return write!(f, "{other}"),
        }
        write!(f, ": {}", self.error.advice())
    }
}

/// Returns the first two neighbours that do not ascend.
fn unsorted<Key: TrieKey>(items: &[(Key, usize)]) -> Option<Refusal> {
    let first = first_unordered::<Simple, _>(items)?;
    Some(Refusal::new(ZeroTrieBuildError::Unsorted, first, first + 1))
}

/// Returns the first key with a byte that is none of the kind's.
fn foreign<K: ZeroTrieWithOptions, Key: TrieKey>(items: &[(Key, usize)]) -> Option<Refusal> {
    let first = first_foreign::<K, _>(items)?;
    Some(Refusal::new(ZeroTrieBuildError::NonAsciiError, first, first))
}

/// Returns whether the key is below all that begin with the front and then the byte.
fn is_below(key: &[u8], front: &[u8], byte: u8) -> bool {
    let common = common_front_len(key, front);
    if common == key.len() {
        return true;
    }
    if common < front.len() {
        key[common] < front[common]
    } else {
        key[common] < byte
    }
}

/// Returns whether the key begins with the front and then the byte.
fn begins(key: &[u8], front: &[u8], byte: u8) -> bool {
    let common = common_front_len(key, front);
    if common == key.len() {
        return false;
    }
    common == front.len() && key[common] == byte
}

/// Returns the number of a key that begins with the front and then the byte, of keys that ascend.
fn key_after<Key: TrieKey>(items: &[(Key, usize)], front: &[u8], byte: u8) -> Option<usize> {
    let place = items.partition_point(|item| is_below(item.0.key_bytes(), front, byte));
    let (key, _) = item_at(items, place);
    if begins(key, front, byte) {
        Some(place)
    } else {
        None
    }
}

/// Returns the number of a key that continues with the other case of the letter by which the key
/// parts from the next, of keys that ascend.
fn other_case<K: ZeroTrieWithOptions, Key: TrieKey>(
    items: &[(Key, usize)],
    key: &[u8],
    next: &[u8],
) -> Option<usize> {
    let common = common_front_len(key, next);
    if common == key.len() {
        return None;
    }
    let fold = folded::<K>(key[common]);
    if fold == key[common] {
        return None;
    }
    key_after(items, &key[..common], fold)
}

/// Returns two keys that differ in case, of keys that ascend. Does not allocate: if a key parts
/// from the next by a letter in upper case, those that continue with this letter in lower case are
/// side by side, and are searched for.
fn mixed<K: ZeroTrieWithOptions, Key: TrieKey>(items: &[(Key, usize)]) -> Option<Refusal> {
    for number in 1..items.len() {
        let (key, _) = item_at(items, number - 1);
        let (next, _) = item_at(items, number);
        if let Some(other) = other_case::<K, Key>(items, key, next) {
            let error = ZeroTrieBuildError::MixedCase;
            return Some(Refusal::between(error, number - 1, other));
        }
    }
    None
}

/// Returns which keys show why a build of a slice returns an error, as `try_from_sorted_slice` of
/// the kind's tries, whose keys are to ascend strictly by their bytes. `None` if none do.
///
/// ```
/// # use zerotrie::{rstd::examples::*, zerotrie_build::*, zerotrie_base::*};
/// let items = [("Accept-CH", 1), ("Accept-Charset", 2), ("Host", 3)];
/// let refusal = why_slice_refused::<Ignore, _>(&items).ok_or("taken")?;
/// assert!(refusal.error == ZeroTrieBuildError::MixedCase);
/// assert_eq!((refusal.first, refusal.second), (0, 1));
/// # Ok::<(), Fail>(())
/// ```
///
/// It asks first for keys that do not ascend, `Unsorted`, then for one with a byte from 128 on in a
/// kind for ASCII, `NonAsciiError`, and then for two that the kind without case cannot have
/// together, `MixedCase`. On `None` a build returns an error only for its length, for a hashed
/// table or as out of memory.
///
/// It does not allocate, and takes time as the keys' bytes in kinds with case. In the kind without
/// case, each key that parts from the next by an upper-case letter costs a binary search besides.
pub fn why_slice_refused<K: ZeroTrieWithOptions, Key: TrieKey>(
    items: &[(Key, usize)],
) -> Option<Refusal> {
    if let Some(refusal) = unsorted(items) {
        return Some(refusal);
    }
    if let Some(refusal) = foreign::<K, Key>(items) {
        return Some(refusal);
    }
    mixed::<K, Key>(items)
}

/// Returns the place of the first of the items whose key is that of the next.
fn first_repeated(items: &[(&[u8], usize)]) -> Option<usize> {
    for place in 1..items.len() {
        let (key, _) = item_at(items, place - 1);
        let (next, _) = item_at(items, place);
        if key == next {
            return Some(place - 1);
        }
    }
    None
}

/// Returns which keys show why a build of items in any order returns an error, by the items in the
/// order of these prefixes, which is that of the folds of their keys.
fn why_sorted_refused<K: ZeroTrieWithOptions, Key: TrieKey>(
    items: &[(Key, usize)],
    prefixes: &[KeyPrefix],
    sorted: &[(&[u8], usize)],
) -> Option<Refusal> {
    if let Some(place) = first_repeated(sorted) {
        let error = ZeroTrieBuildError::DuplicateKey;
        return Some(Refusal::between(error, prefixes[place].index, prefixes[place + 1].index));
    }
    if let Some(refusal) = foreign::<K, Key>(items) {
        return Some(refusal);
    }
    let place = first_unordered::<K, _>(sorted)?;
    let error = ZeroTrieBuildError::MixedCase;
    Some(Refusal::between(error, prefixes[place].index, prefixes[place + 1].index))
}

/// Returns which keys show why a build of the pairs that an iterator gives returns an error, as
/// `try_from_iter` of the kind's tries, which takes them in any order. `None` if none do.
///
/// ```
/// # use zerotrie::{rstd::examples::*, zerotrie_build::*, zerotrie_base::*};
/// let items = [("to", 1), ("in", 2), ("to", 3)];
/// let refusal = why_iter_refused::<Simple, _>(Global, &items)?.ok_or("taken")?;
/// assert!(refusal.error == ZeroTrieBuildError::DuplicateKey);
/// assert_eq!((refusal.first, refusal.second), (0, 2));
/// # Ok::<(), Fail>(())
/// ```
///
/// It asks first for two keys that are the same, `DuplicateKey`, then for one with a byte from 128
/// on in a kind for ASCII, `NonAsciiError`, and then for two that the kind without case cannot have
/// together, `MixedCase`. On `None` a build returns an error only for its length, for a hashed
/// table or as out of memory.
///
/// It sorts the keys in about the memory of a build. It compares whole keys, which takes longer than
/// a build if many of them begin alike. The only error is out of memory.
pub fn why_iter_refused<K: ZeroTrieWithOptions, Key: TrieKey>(
    alloc: Global,
    items: &[(Key, usize)],
) -> Result<Option<Refusal>, AllocError> {
    let prefixes = sorted_prefixes::<K, Key, Global>(alloc, items)?;
    let sorted = items_at(alloc, items, prefixes.as_slice())?;
    Ok(why_sorted_refused::<K, Key>(items, prefixes.as_slice(), sorted.as_slice()))
}
