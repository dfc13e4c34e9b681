// Made from crates/zerotrie_making/src/duplicates.rt by rust/make: edit that.
//! Which pairs are kept of those that have one key.

use crate::rstd::prelude::*;
use crate::zerotrie_making::error::{MakeError, numbered};
use crate::rstd::alloc::{AllocError, Global};
use crate::rstd::collections::BTreeMap;
use crate::zerotrie_sets::Rule;

/// What is done with pairs that have one key.
#[derive(Clone, Copy, PartialEq, Eq, Debug)]
pub enum Duplicates {
    /// They are an error.
    Refuse,
    /// The first of them is kept.
    First,
    /// The last of them is kept.
    Last,
    /// The first of them is kept, with the sum of their values. A sum of 2^64 or more is an error.
    Sum,
    /// The first of them is kept, with the least of their values.
    Min,
    /// The first of them is kept, with the greatest of their values.
    Max,
}

/// Pairs that are kept, and their numbers among all pairs, from 1 on.
pub(in crate::zerotrie_making) struct Kept<'a> {
    pub(in crate::zerotrie_making) numbers: Vec<usize>,
    pub(in crate::zerotrie_making) items: Vec<(&'a [u8], usize)>,
}

/// Adds a key to those that were seen, and returns whether it is new.
fn is_new<'a>(seen: &mut BTreeMap<&'a [u8], ()>, key: &'a [u8]) -> Result<bool, AllocError> {
    match seen.insert(key, ()) {
        Ok(earlier) => Ok(earlier.is_none()),
        Err(_) => Err(AllocError),
    }
}

/// Adds a pair to those that are kept, unless its key was seen.
fn add_new<'a>(
    seen: &mut BTreeMap<&'a [u8], ()>,
    kept: &mut Kept<'a>,
    number: usize,
    item: (&'a [u8], usize),
) -> Result<(), AllocError> {
    if is_new(seen, item.0)? {
        kept.numbers.push(number)?;
        kept.items.push(item)?;
    }
    Ok(())
}

/// Keeps the pairs whose keys no pair before them has.
pub(in crate::zerotrie_making) fn firsts<'a>(alloc: Global, all: &[(&'a [u8], usize)]) -> Result<Kept<'a>, AllocError> {
    let mut seen = BTreeMap::new(alloc);
    let mut kept = Kept {
        numbers: Vec::new(alloc),
        items: Vec::new(alloc),
    };
    let mut done = 0;
    while done < all.len() {
        add_new(&mut seen, &mut kept, done + 1, all[done])?;
        done += 1;
    }
    Ok(kept)
}

/// Keeps the pairs whose keys no pair after them has.
pub(in crate::zerotrie_making) fn lasts<'a>(alloc: Global, all: &[(&'a [u8], usize)]) -> Result<Kept<'a>, AllocError> {
    let mut seen = BTreeMap::new(alloc);
    let mut kept = Kept {
        numbers: Vec::new(alloc),
        items: Vec::new(alloc),
    };
    let mut left = all.len();
    while left > 0 {
        add_new(&mut seen, &mut kept, left, all[left - 1])?;
        left -= 1;
    }
    kept.numbers.reverse();
    kept.items.reverse();
    Ok(kept)
}

/// Returns what a rule makes of a value and the next one. `None` if it is a sum of 2^64 or more.
fn one_of_two(rule: Rule, value: usize, next: usize) -> Option<usize> {
    match rule {
        Rule::First | Rule::Equal | Rule::Refuse => Some(value),
        Rule::Last => Some(next),
        Rule::Sum => value.checked_add(next),
        Rule::Min => Some(value.min(next)),
        Rule::Max => Some(value.max(next)),
    }
}

/// Adds a pair whose key is new.
fn add_first<'a>(
    places: &mut BTreeMap<&'a [u8], usize>,
    kept: &mut Kept<'a>,
    number: usize,
    item: (&'a [u8], usize),
) -> Result<(), AllocError> {
    match places.insert(item.0, kept.items.len()) {
        Ok(_earlier) => {
            kept.numbers.push(number)?;
            kept.items.push(item)?;
            Ok(())
        }
        Err(_) => Err(AllocError),
    }
}

/// Merges a value into the item at a place, by the rule. Returns whether that is no sum of 2^64 or
/// more.
fn merge_at<'a>(items: &mut Vec<(&'a [u8], usize)>, rule: Rule, place: usize, next: usize) -> bool {
    let (key, value) = items[place];
    match one_of_two(rule, value, next) {
        Some(one) => {
            items[place] = (key, one);
            true
        }
        None => false,
    }
}

/// Keeps the first pair of each key, with what the rule makes of the values of all pairs that have the
/// key.
pub(in crate::zerotrie_making) fn merged<'a>(
    alloc: Global,
    rule: Rule,
    all: &[(&'a [u8], usize)],
) -> Result<Kept<'a>, MakeError> {
    let mut places = BTreeMap::new(alloc);
    let mut kept = Kept {
        numbers: Vec::new(alloc),
        items: Vec::new(alloc),
    };
    let mut done = 0;
    while done < all.len() {
        let (key, value) = all[done];
        let place = places.get(key).copied();
        match place {
            None => add_first(&mut places, &mut kept, done + 1, all[done])?,
            Some(place) => {
                if !merge_at(&mut kept.items, rule, place, value) {
                    return Err(MakeError::SumTooLarge(numbered(alloc, None, all, done)?));
                }
            }
        }
        done += 1;
    }
    Ok(kept)
}
