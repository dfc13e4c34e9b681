// Made from crates/zerotrie_sets/src/merge_all.rt by rust/make: edit that.
//! Any number of streams merged: a row for each key of any of them.

use crate::rstd::prelude::*;
use crate::zerotrie_sets::input::Input;
use crate::zerotrie_sets::selection::{Rule, RuleError, Selection};
use crate::rstd::alloc::{AllocError, Allocator, Global};
use crate::rstd::cmp::Ordering;
use crate::zerotrie_core::PairStream;

/// Lists the keys of any number of streams in the order of bytes, each key once, with the value
/// that each stream has for it.
///
/// ```
/// # use zerotrie::{rstd::examples::*, zerotrie_sets::*, zerotrie_base::*, zerotrie_core::*, zerotrie_search::*};
/// let mut streams = Vec::new(Global);
/// streams.push(SortedSlice::new(&[(b"a", 1), (b"c", 2)]).ok_or("not sorted")?)?;
/// streams.push(SortedSlice::new(&[(b"b", 3)]).ok_or("not sorted")?)?;
/// streams.push(SortedSlice::new(&[(b"a", 4)]).ok_or("not sorted")?)?;
/// let mut rows = MergeAll::new(Global, streams)?;
/// assert!(rows.advance()?);
/// assert_eq!(rows.key(), b"a".as_slice());
/// assert_eq!((rows.value(0), rows.value(1), rows.value(2)), (Some(1), None, Some(4)));
/// assert_eq!((rows.first(), rows.last()), (Some(1), Some(4)));
/// # Ok::<(), Fail>(())
/// ```
///
/// It allocates for the streams at first, and then no more, apart from what the streams do. A step
/// compares the least key so far with the key of each stream.
pub struct MergeAll<S: PairStream, A: Allocator = Global> {
    inputs: Vec<Input<S>, A>,
    // The number of the first input with the current key.
    at: usize,
    ended: bool,
}

impl<S: PairStream, A: Allocator + Copy> MergeAll<S, A> {
    /// Merges streams. Does not advance them before the first call of `advance`.
    pub fn new(alloc: A, streams: Vec<S, A>) -> Result<Self, AllocError> {
        crate::zerotrie_sets::laws::rows_of_all_are_of_maps();
        let mut inputs = Vec::new(alloc);
        for stream in streams {
            inputs.push(Input::new(stream))?;
        }
        Ok(MergeAll {
            inputs,
            at: 0,
            ended: false,
        })
    }
}

impl<S: PairStream, A: Allocator> MergeAll<S, A> {
    /// Moves to the next key, and returns whether there is one. An error ends the merge. The only
    /// error is a failed allocation in a stream: a merge of slices never fails.
    pub fn advance(&mut self) -> Result<bool, AllocError> {
        if self.ended {
            return Ok(false);
        }
        self.ended = true;
        let found = next_row(&mut self.inputs, &mut self.at)?;
        self.ended = !found;
        Ok(found)
    }

    /// Returns the current key, the one that the last call of `advance` moved to. Before the first
    /// call and after the end, it is not a key of the streams.
    pub fn key(&self) -> &[u8] {
        match self.inputs.get(self.at) {
            Some(input) => input.stream.key(),
            None => &[],
        }
    }

    /// Returns the value that a stream has for the current key, if it has the key. The streams are
    /// numbered from 0 on.
    pub fn value(&self, stream: usize) -> Option<usize> {
        match self.inputs.get(stream) {
            Some(input) => input.listed(),
            None => None,
        }
    }

    /// Returns the value of the first stream that has the current key, as in a union that keeps the
    /// first.
    pub fn first(&self) -> Option<usize> {
        first_listed(&self.inputs)
    }

    /// Returns the value of the last stream that has the current key, as in a union that keeps the
    /// last.
    pub fn last(&self) -> Option<usize> {
        last_listed(&self.inputs)
    }

    /// Returns the value that a selection has for the current key, which is what the rule makes of
    /// the values of the streams that have the key, or `None` if the selection does not take it.
    ///
    /// ```
    /// # use zerotrie::{rstd::examples::*, zerotrie_sets::*, zerotrie_base::*, zerotrie_core::*, zerotrie_search::*};
    /// let mut streams = Vec::new(Global);
    /// streams.push(SortedSlice::new(&[(b"a", 1), (b"c", 2)]).ok_or("not sorted")?)?;
    /// streams.push(SortedSlice::new(&[(b"a", 3), (b"b", 4)]).ok_or("not sorted")?)?;
    /// let mut rows = MergeAll::new(Global, streams)?;
    /// assert!(rows.advance()?);
    /// assert_eq!(rows.selected(Selection::Union, Rule::Sum)?, Some(4));
    /// assert_eq!(rows.selected(Selection::Difference, Rule::Sum)?, None);
    /// let several = rows.selected(Selection::Union, Rule::Refuse);
    /// assert!(matches!(several, Err(RuleError::SeveralValues)));
    /// # Ok::<(), Fail>(())
    /// ```
    pub fn selected(&self, selection: Selection, rule: Rule) -> Result<Option<usize>, RuleError> {
        let first = self.value(0).is_some();
        if selection.takes(first, count_listed(&self.inputs), self.inputs.len()) {
            one_listed(&self.inputs, rule)
        } else {
            Ok(None)
        }
    }
}

/// Returns how many values were listed.
fn count_listed<S: PairStream>(inputs: &[Input<S>]) -> usize {
    let mut count = 0;
    for input in inputs {
        count += usize::from(input.listed().is_some());
    }
    count
}

/// Returns what a rule makes of the values that were listed.
fn one_listed<S: PairStream>(inputs: &[Input<S>], rule: Rule) -> Result<Option<usize>, RuleError> {
    let mut one = None;
    for input in inputs {
        match rule.one_more(one, input.listed()) {
            Ok(more) => one = more,
            Err(error) => return Err(error),
        }
    }
    Ok(one)
}

/// Returns the first value that was listed.
fn first_listed<S: PairStream>(inputs: &[Input<S>]) -> Option<usize> {
    for input in inputs {
        let value = input.listed();
        if value.is_some() {
            return value;
        }
    }
    None
}

/// Returns the last value that was listed.
fn last_listed<S: PairStream>(inputs: &[Input<S>]) -> Option<usize> {
    let mut last = None;
    for input in inputs {
        last = input.listed().or(last);
    }
    last
}

/// Moves each input to its first pair that is still to be listed.
fn fetch_all<S: PairStream>(inputs: &mut [Input<S>]) -> Result<(), AllocError> {
    for input in inputs.iter_mut() {
        input.fetch()?;
    }
    Ok(())
}

/// The least key that waits, and which inputs have it.
#[derive(Clone, Copy, Debug)]
struct Least<'k> {
    /// The number of the first one.
    at: usize,
    key: &'k [u8],
    /// No other input has the key.
    alone: bool,
}

/// Returns the lesser of the least key so far and that of an input, if one waits there.
fn lesser<'k>(least: Option<Least<'k>>, at: usize, waiting: Option<&'k [u8]>) -> Option<Least<'k>> {
    let Some(key) = waiting else {
        return least;
    };
    let first = Least {
        at,
        key,
        alone: true,
    };
    let Some(before) = least else {
        return Some(first);
    };
    match key.cmp(before.key) {
        Ordering::Less => Some(first),
        Ordering::Equal => Some(Least {
            alone: false,
            ..before
        }),
        Ordering::Greater => Some(before),
    }
}

/// Returns the least key that waits.
fn find_least<S: PairStream>(inputs: &[Input<S>]) -> Option<Least<'_>> {
    let mut least: Option<Least<'_>> = None;
    for at in 0..inputs.len() {
        least = lesser(least, at, inputs[at].waiting());
    }
    least
}

/// Lists the pairs that wait with this key.
fn list_all<S: PairStream>(inputs: &mut [Input<S>], key: &[u8]) {
    for input in inputs.iter_mut() {
        input.list_key(key);
    }
}

/// Lists the pairs that wait with the key of the input at a place: that one, and those after it
/// unless it is alone.
fn list_least<S: PairStream>(inputs: &mut [Input<S>], at: usize, alone: bool) {
    inputs[at].list();
    if alone {
        return;
    }
    let (front, others) = inputs.split_at_mut(at + 1);
    list_all(others, front[at].stream.key());
}

/// Moves to the next row, and returns whether there is one.
fn next_row<S: PairStream>(inputs: &mut [Input<S>], at: &mut usize) -> Result<bool, AllocError> {
    fetch_all(inputs)?;
    let Some(least) = find_least(inputs) else {
        return Ok(false);
    };
    let alone = least.alone;
    *at = least.at;
    list_least(inputs, *at, alone);
    Ok(true)
}
