// Made from crates/zerotrie_build/src/array/walk.rt by rust/make: edit that.
//! The items, from the last to the first, and the branches where they part.
//!
//! In front is the text of what lies under the first bytes of one key, and after it the targets of
//! open branches, the siblings, of which the one that was set aside last comes first.

use crate::zerotrie_build::array::text::{Sibling, Text, total};
use crate::zerotrie_build::items::ByteSliceWithIndices;
use crate::zerotrie_build::order::common_front_len;
use crate::rstd::arrayvec::ArrayVec;
use crate::zerotrie_base::{ZeroTrieBuildError, ZeroTrieWithOptions};

/// Sets the text in front aside as the target of a branch at this depth.
fn set_aside<const STACK: usize>(
    text: &mut Text<'_>,
    siblings: &mut ArrayVec<Sibling, STACK>,
    byte: u8,
    depth: usize,
) -> Result<(), ZeroTrieBuildError> {
    if siblings.is_full() {
        return Err(ZeroTrieBuildError::StackExceeded);
    }
    let len = text.front;
    siblings.push(Sibling { depth, byte, len });
    text.front = 0;
    Ok(())
}

/// Returns where the siblings at this depth begin, which were set aside last.
fn start_of<const STACK: usize>(siblings: &ArrayVec<Sibling, STACK>, depth: usize) -> usize {
    let mut start = siblings.len();
    while start > 0 && siblings[start - 1].depth == depth {
        start -= 1;
    }
    start
}

/// Makes a branch of the siblings at this depth.
fn join<const STACK: usize>(
    text: &mut Text<'_>,
    siblings: &mut ArrayVec<Sibling, STACK>,
    depth: usize,
) -> Result<(), ZeroTrieBuildError> {
    let start = start_of(siblings, depth);
    let branch = &siblings.as_slice()[start..];
    let total = total(branch);
    if total as u64 >= 1 << 32 || total == usize::MAX {
        return Err(ZeroTrieBuildError::CapacityExceeded);
    }
    text.front = total;
    text.put_branch(branch, total);
    siblings.truncate(start);
    Ok(())
}

/// Returns whether siblings lie at this depth.
fn has_siblings_at<const STACK: usize>(siblings: &ArrayVec<Sibling, STACK>, depth: usize) -> bool {
    match siblings.last() {
        Some(top) => top.depth == depth,
        None => false,
    }
}

/// Goes from the text of what lies under `depth + 1` bytes of the key to what lies under `depth`.
fn close_level<K: ZeroTrieWithOptions, const STACK: usize>(
    text: &mut Text<'_>,
    siblings: &mut ArrayVec<Sibling, STACK>,
    key: &[u8],
    depth: usize,
) -> Result<(), ZeroTrieBuildError> {
    if has_siblings_at(siblings, depth) {
        set_aside(text, siblings, key[depth], depth)?;
        return join(text, siblings, depth);
    }
    text.put(key[depth]);
    Ok(())
}

/// Goes from the text of the whole key to what lies under its first `stop` bytes.
fn close_to<K: ZeroTrieWithOptions, const STACK: usize>(
    text: &mut Text<'_>,
    siblings: &mut ArrayVec<Sibling, STACK>,
    key: &[u8],
    stop: usize,
) -> Result<(), ZeroTrieBuildError> {
    let mut depth = key.len();
    while depth > stop {
        depth -= 1;
        close_level::<K, STACK>(text, siblings, key, depth)?;
    }
    Ok(())
}

/// Closes the levels below the common prefix with the previous key, and saves what is built as a
/// sibling, unless the previous key is that prefix.
fn go_before<K: ZeroTrieWithOptions, const STACK: usize>(
    text: &mut Text<'_>,
    siblings: &mut ArrayVec<Sibling, STACK>,
    before: &[u8],
    key: &[u8],
) -> Result<(), ZeroTrieBuildError> {
    let common = common_front_len(before, key);
    if common == before.len() {
        return close_to::<K, STACK>(text, siblings, key, common);
    }
    close_to::<K, STACK>(text, siblings, key, common + 1)?;
    set_aside(text, siblings, key[common], common)
}

/// Adds the item of this number, after which all items are added.
fn add<K: ZeroTrieWithOptions, const STACK: usize>(
    text: &mut Text<'_>,
    siblings: &mut ArrayVec<Sibling, STACK>,
    items: ByteSliceWithIndices<'_>,
    index: usize,
) -> Result<(), ZeroTrieBuildError> {
    let (key, value) = items.get(index);
    text.put_value(value);
    if index == 0 {
        return close_to::<K, STACK>(text, siblings, key, 0);
    }
    let (before, _) = items.get(index - 1);
    go_before::<K, STACK>(text, siblings, before, key)
}

/// Writes the text of the trie of the items at the end of the buffer, if it has room for it, and
/// returns how many bytes the text has, or the greatest number if it has more. What lies before the
/// text stays.
pub(in crate::made::zerotrie_build) fn build_text<K: ZeroTrieWithOptions, const STACK: usize>(
    buffer: &mut [u8],
    items: ByteSliceWithIndices<'_>,
) -> Result<usize, ZeroTrieBuildError> {
    let mut text = Text {
        buffer,
        len: 0,
        front: 0,
    };
    let mut siblings: ArrayVec<Sibling, STACK> = ArrayVec::new();
    let mut index = items.len();
    while index > 0 {
        index -= 1;
        add::<K, STACK>(&mut text, &mut siblings, items, index)?;
    }
    Ok(text.len)
}
