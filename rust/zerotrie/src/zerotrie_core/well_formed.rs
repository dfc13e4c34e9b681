// Made from crates/zerotrie_core/src/well_formed.rt by rust/make: edit that.
//! Validation of bytes.
//!
//! It reads nodes as a look-up does, in one call for all of a trie but the shorter targets of a
//! branch. Each of those that is more than a leaf has a call of its own, and the loop continues
//! with the longest one. A shorter target has less than half of the bytes, so few calls are open at
//! once. Nothing is allocated.

pub(in crate::made::zerotrie_core) mod branches;
pub(in crate::made::zerotrie_core) mod known_table;

use crate::zerotrie_core::branch::Branch;
use crate::zerotrie_core::here::Here;
use crate::zerotrie_core::node::{Node, first_node};
use branches::{has_front, target_from};
use known_table::KnownTable;
use crate::zerotrie_base::ZeroTrieWithOptions;

/// What may come next.
#[derive(Clone, Copy)]
pub(in crate::made::zerotrie_core) enum Expected {
    /// Anything, also the end.
    Anything,
    /// Anything but a value, since one came before it.
    NoValue,
    /// Neither a span, since one came before it, nor the end.
    NoSpan,
    /// Anything but the end.
    Something,
}

impl Expected {
    pub(in crate::made::zerotrie_core) fn takes_value(self) -> bool {
        !matches!(self, Expected::NoValue)
    }

    pub(in crate::made::zerotrie_core) fn takes_span(self) -> bool {
        !matches!(self, Expected::NoSpan)
    }

    pub(in crate::made::zerotrie_core) fn takes_end(self) -> bool {
        matches!(self, Expected::Anything | Expected::NoValue)
    }
}

/// The next step of validation.
#[derive(Clone, Copy)]
pub(in crate::made::zerotrie_core) enum Step<'a> {
    /// The node may not be there.
    Wrong,
    /// Skip literals, at least one.
    Literals,
    /// Continue in these bytes, which this may begin.
    Over(&'a [u8], Expected),
    /// Continue in the targets of a branch.
    Behind(Branch<'a>),
}

/// Returns whether the bytes can be the run of a span.
pub(in crate::made::zerotrie_core) fn is_run(run: &[u8]) -> bool {
    if run.is_empty() {
        return false;
    }
    for byte in run {
        if *byte < 128 {
            return false;
        }
    }
    true
}

#[inline(always)]
fn value_step(rest: &[u8], expected: Expected) -> Step<'_> {
    if expected.takes_value() {
        Step::Over(rest, Expected::NoValue)
    } else {
        Step::Wrong
    }
}

#[inline(always)]
fn span_step<'a>(run: &[u8], rest: &'a [u8], expected: Expected) -> Step<'a> {
    if expected.takes_span() && is_run(run) {
        Step::Over(rest, Expected::NoSpan)
    } else {
        Step::Wrong
    }
}

/// Returns the next step after a node, given what may be there.
#[inline(always)]
fn next_step<'a, K: ZeroTrieWithOptions>(node: Node<'a>, expected: Expected) -> Step<'a> {
    match node {
        Node::Value(_value, rest) => value_step(rest, expected),
        Node::Literal(_edge, _rest) => Step::Literals,
        Node::Span(run, rest) => span_step(run, rest, expected),
        Node::Branch(branch) => Step::Behind(branch),
    }
}

/// Skips a value, if the first sixteen bytes show one, and returns what may follow.
#[inline(always)]
fn past_value(here: Here<'_>) -> (Here<'_>, Expected) {
    let len = here.value_len();
    let expected = if len > 0 {
        Expected::NoValue
    } else {
        Expected::Something
    };
    (here.after(len), expected)
}

/// Skips literals and a value, up to sixteen bytes of each, and returns what may follow. The bytes
/// must not be empty. No jump depends on the number of literals or on the value.
#[inline(always)]
fn pass(here: Here<'_>) -> (Here<'_>, Expected) {
    past_value(here.after(here.literals()))
}

/// Like `pass`, and again if literals follow the first value, as in a word that longer words begin
/// with.
#[inline(always)]
fn pass_twice(here: Here<'_>) -> (Here<'_>, Expected) {
    let (at, expected) = pass(here);
    match at.rest.first() {
        Some(byte) if *byte < 128 => pass(at),
        _ => (at, expected),
    }
}

/// Returns the shorter and the longer of two targets. Of equal ones the first is the longer.
#[inline(always)]
fn by_length<'a>(first: Here<'a>, next: Here<'a>) -> (Here<'a>, Here<'a>) {
    if first.rest.len() < next.rest.len() {
        (first, next)
    } else {
        (next, first)
    }
}

/// Validates a branch and all its targets but the longest. Returns that one, and the depth so far.
/// Reads each offset once: of the targets so far, all but the longest are validated.
fn go_behind<'a, K: ZeroTrieWithOptions>(
    here: Here<'a>,
    branch: Branch<'a>,
    known: &mut KnownTable<'a>,
) -> Option<(Here<'a>, u32)> {
    if !has_front::<K>(&branch, here.behind(branch.behind), known) {
        return None;
    }
    let targets = here.behind(branch.targets());
    let mut longest = target_from::<K>(&branch, targets, 0, 0)?;
    let mut begin = longest.rest.len();
    let mut most: u32 = 1;
    for index in 1..branch.edges {
        let target = target_from::<K>(&branch, targets, begin, index)?;
        begin += target.rest.len();
        let (shorter, longer) = by_length(longest, target);
        longest = longer;
        let (yes, count) = is_target_counted::<K>(shorter, known);
        if !yes {
            return None;
        }
        most = most.max(count + 1);
    }
    Some((longest, most))
}

/// Returns whether a target, which must not be empty, is a trie of the kind, and its depth. Most of
/// the shorter targets are literals and a value, and need no call.
#[inline(always)]
fn is_target_counted<'a, K: ZeroTrieWithOptions>(
    target: Here<'a>,
    known: &mut KnownTable<'a>,
) -> (bool, u32) {
    let (at, expected) = pass_twice(target);
    if at.rest.is_empty() {
        return (expected.takes_end(), 1);
    }
    is_text_counted::<K>(at.tail, at.rest.len(), expected, known)
}

/// Returns whether the first `len` bytes are a trie of the kind that may be there, and its depth.
fn is_text_counted<'a, K: ZeroTrieWithOptions>(
    tail: &'a [u8],
    len: usize,
    expected: Expected,
    known: &mut KnownTable<'a>,
) -> (bool, u32) {
    let mut at = Here::first_of(tail, len);
    let mut next = expected;
    let mut most: u32 = 1;
    while let Some(node) = first_node::<K>(at.rest) {
        match next_step::<K>(node, next) {
            Step::Wrong => return (false, most),
            Step::Literals => {
                (at, next) = past_value(at.after(at.literals().max(1)));
            }
            Step::Over(after, following) => {
                at = at.behind(after);
                next = following;
            }
            Step::Behind(branch) => match go_behind::<K>(at, branch, known) {
                None => return (false, most),
                Some((longest, count)) => {
                    (at, next) = pass(longest);
                    most = most.max(count);
                }
            },
        }
    }
    (at.rest.is_empty() && next.takes_end(), most)
}

/// Returns whether the bytes are valid, and a bound on the depth of recursion that the test used.
///
/// ```
/// # use zerotrie::{rstd::examples::*, zerotrie_core::*, zerotrie_base::*};
/// assert_eq!(is_well_formed_counted::<Simple>(&[0x61, 0x85]), (true, 1));
/// assert_eq!(is_well_formed_counted::<Simple>(&[0xC2, 0x61, 0x62, 1, 0x80, 0x81]), (true, 2));
/// assert!(!is_well_formed_counted::<Simple>(&[0x61]).0);
/// # Ok::<(), Fail>(())
/// ```
///
/// The test calls itself for each target of a branch but the longest, unless it is a leaf, and
/// continues with the longest; of equal ones that is the first. A leaf counts as a call. Fewer than
/// 2^d bytes, with d at least 1, give a depth from 1 to d, so never more than 64.
///
/// Works on any bytes and does not allocate.
pub fn is_well_formed_counted<K: ZeroTrieWithOptions>(bytes: &[u8]) -> (bool, u32) {
    let mut known = KnownTable::none();
    is_text_counted::<K>(bytes, bytes.len(), Expected::Anything, &mut known)
}

/// Returns whether the bytes are valid: a trie of the kind that keeps every rule of the format.
///
/// ```
/// # use zerotrie::{rstd::examples::*, zerotrie_core::*, zerotrie_base::*};
/// assert!(is_well_formed::<Simple>(&[0x61, 0x85]));   // the key "a" with value 5
/// assert!(!is_well_formed::<Simple>(&[0x61]));        // nothing follows the key's byte
/// assert!(is_well_formed::<Simple>(&[]));             // no keys
/// # Ok::<(), Fail>(())
/// ```
///
/// The result is `true` exactly if the bytes mean some map. Works on any bytes and does not
/// allocate.
pub fn is_well_formed<K: ZeroTrieWithOptions>(bytes: &[u8]) -> bool {
    is_well_formed_counted::<K>(bytes).0
}
