// Made from crates/zerotrie_build/src/windows.rt by rust/make: edit that.
//! What is first in the text of a window of the items.

use crate::zerotrie_build::items::IndexedItems;
use crate::zerotrie_base::ZeroTrieWithOptions;

/// The items from one number to below another, each key without its first `depth` bytes.
#[derive(Clone, Copy)]
pub(in crate::made::zerotrie_build) struct Window {
    pub(in crate::made::zerotrie_build) from: usize,
    pub(in crate::made::zerotrie_build) to: usize,
    pub(in crate::made::zerotrie_build) depth: usize,
}

impl Window {
    /// Returns the window from an item to below another, at a depth.
    #[inline(always)]
    pub(in crate::made::zerotrie_build) fn new(from: usize, to: usize, depth: usize) -> Self {
        Window { from, to, depth }
    }
}

/// What is first in the text of a window.
#[derive(Clone, Copy)]
pub(in crate::made::zerotrie_build) enum Step {
    /// There are no items.
    End,
    /// The value of the first item, whose key ends here.
    Value(usize),
    /// A byte that all keys have.
    #[allow(dead_code)] // a proof reads it
    Literal(u8),
    /// So many bytes from 128 on, which all keys have.
    Span(usize),
    /// A branch: the keys part.
    Branch,
}

/// Returns the byte of the item's key at the depth, if there is one.
pub(in crate::made::zerotrie_build) fn byte_at<'a, I: IndexedItems<'a>>(items: I, index: usize, depth: usize) -> Option<u8> {
    let (key, _) = items.get(index);
    // That a length is below 2^64 shows the proof that so is a place in it.
    let _len = key.len();
    key.get(depth).copied()
}

/// Returns how many bytes from 128 on two keys have in common in front.
#[inline(always)]
fn high_front_len(key: &[u8], other: &[u8]) -> usize {
    let most = key.len().min(other.len());
    let mut count = 0;
    while count < most && key[count] == other[count] && key[count] >= 128 {
        count += 1;
    }
    count
}

/// Returns where the bytes below 128 end that two keys have in common from a place on.
#[inline(always)]
fn low_end(key: &[u8], other: &[u8], from: usize) -> usize {
    let most = key.len().min(other.len());
    let mut end = from;
    while end < most && key[end] == other[end] && key[end] < 128 {
        end += 1;
    }
    end
}

/// Returns the depth at which the literals end with which the text of the window begins. There is
/// one at least.
pub(in crate::made::zerotrie_build) fn literals_end<'a, I: IndexedItems<'a>>(items: I, window: Window) -> usize {
    let (first, _) = items.get(window.from);
    if window.to - window.from == 1 {
        return low_end(first, first, window.depth);
    }
    let (last, _) = items.get(window.to - 1);
    low_end(first, last, window.depth)
}

/// Returns how many bytes from 128 on all keys of the window have in common in front, if they
/// continue with this byte.
fn span_len<'a, I: IndexedItems<'a>>(items: I, window: Window, byte: u8) -> usize {
    let (first, _) = items.get(window.from);
    let _len = first.len();
    let rest = &first[window.depth..];
    if window.to - window.from == 1 {
        return high_front_len(rest, rest);
    }
    let (last, _) = items.get(window.to - 1);
    high_front_len(rest, &last[window.depth..])
}

/// Returns what is first in the text of the window, if its first and its last key both continue
/// with this byte.
fn common_step<'a, K: ZeroTrieWithOptions, I: IndexedItems<'a>>(
    items: I,
    window: Window,
    byte: u8,
) -> Step {
    if !K::SPANS || byte < 128 {
        return Step::Literal(byte);
    }
    Step::Span(span_len(items, window, byte))
}

/// Returns what is first in the text of the window.
pub(in crate::made::zerotrie_build) fn first_step<'a, K: ZeroTrieWithOptions, I: IndexedItems<'a>>(
    items: I,
    window: Window,
) -> Step {
    if window.from >= window.to {
        return Step::End;
    }
    let Some(byte) = byte_at(items, window.from, window.depth) else {
        return Step::Value(items.get(window.from).1);
    };
    if byte_at(items, window.to - 1, window.depth) != Some(byte) {
        return Step::Branch;
    }
    common_step::<K, I>(items, window, byte)
}

/// The first items of a window, which have one byte at its depth.
#[derive(Clone, Copy)]
pub(in crate::made::zerotrie_build) struct Group {
    /// The number of the item after them.
    pub(in crate::made::zerotrie_build) end: usize,
    /// The byte of that item at the depth, if it is in the window.
    pub(in crate::made::zerotrie_build) next: Option<u8>,
}

/// Returns the byte at the depth of the item of this number, if it is in the window.
pub(in crate::made::zerotrie_build) fn byte_in<'a, I: IndexedItems<'a>>(items: I, window: Window, index: usize) -> Option<u8> {
    if index >= window.to {
        return None;
    }
    byte_at(items, index, window.depth)
}

/// Returns the first items that have one byte at the depth. Looks ever further ahead, and halves
/// what is left once it was too far.
pub(in crate::made::zerotrie_build) fn group_of<'a, K: ZeroTrieWithOptions, I: IndexedItems<'a>>(
    items: I,
    window: Window,
    byte: Option<u8>,
) -> Group {
    // All items below `low` have the byte, and none from `high` on has it.
    let mut low = window.from + 1;
    let mut high = window.to;
    let mut next = None;
    let mut ahead = 0;
    while low < high {
        let step = ((high - low) / 2).min(ahead);
        let place = low + step;
        let there = byte_at(items, place, window.depth);
        if there == byte {
            low = place + 1;
            ahead = 2 * step + 1;
        } else {
            high = place;
            next = there;
        }
    }
    Group { end: low, next }
}

/// Returns the rest of the key and the value of the one item of a window, if there is but one.
#[inline(always)]
pub(in crate::made::zerotrie_build) fn single_item<'a, I: IndexedItems<'a>>(
    items: I,
    window: Window,
) -> Option<(&'a [u8], usize)> {
    if window.to.saturating_sub(window.from) != 1 {
        return None;
    }
    let (key, value) = items.get(window.from);
    // That a length is below 2^64 shows the proof that so is a place in it.
    let _len = key.len();
    let rest = key.get(window.depth..)?;
    Some((rest, value))
}

/// Like `single_item`, and only if the rest is ASCII: then rest and value are all of the window's
/// text, as literals and a value. If all keys are known to be ASCII, the rest is not looked at.
#[inline(always)]
pub(in crate::made::zerotrie_build) fn ascii_leaf<'a, I: IndexedItems<'a>>(
    items: I,
    window: Window,
    ascii: bool,
) -> Option<(&'a [u8], usize)> {
    let (rest, value) = single_item(items, window)?;
    if !ascii && !rest.is_ascii() {
        return None;
    }
    Some((rest, value))
}

/// Returns the encoded length of one byte of a short rest. `high` says whether the byte before it
/// is 128 or more. A byte that begins a span has the byte of the span's length before it.
#[inline(always)]
fn byte_len(high: bool, byte: u8) -> usize {
    if byte < 128 || high { 1 } else { 2 }
}

/// Returns how many bytes the literals and spans of a rest have that has itself less than 16, so
/// that the length of each span has one.
#[inline(always)]
fn short_len(rest: &[u8]) -> usize {
    let mut len = 0;
    let mut high = false;
    for byte in rest {
        len += byte_len(high, *byte);
        high = *byte >= 128;
    }
    len
}

/// Returns how many bytes the literals and spans of the rest of a key have, if its spans need not
/// be counted one by one. If `ascii` is true, it has none.
#[inline(always)]
pub(in crate::made::zerotrie_build) fn rest_len<K: ZeroTrieWithOptions>(rest: &[u8], ascii: bool) -> Option<usize> {
    if ascii {
        return Some(rest.len());
    }
    if K::SPANS && rest.len() < 16 {
        return Some(short_len(rest));
    }
    None
}
