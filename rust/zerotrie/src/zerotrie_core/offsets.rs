// Made from crates/zerotrie_core/src/offsets.rt by rust/make: edit that.
//! The offsets of a branch. Their bytes are in blocks: the highest bytes of all offsets, then the
//! next bytes, and so on.

/// Reads an offset of up to three bytes, one from each block. The last one is read first, since it
/// is beyond the others: if it is in the table, so are they.
#[inline(always)]
pub(in crate::made::zerotrie_core) fn short_offset_at(table: &[u8], place: usize, count: usize, width: usize) -> usize {
    if width == 1 {
        return table[place] as usize;
    }
    if width == 2 {
        let low = table[count + place] as usize;
        return table[place] as usize * 256 + low;
    }
    let low = table[2 * count + place] as usize;
    (table[place] as usize * 256 + table[count + place] as usize) * 256 + low
}

/// Like `offset_at`, for any width. Not inlined: few tries have offsets of more than three bytes.
fn long_offset_at(table: &[u8], place: usize, count: usize, width: usize) -> usize {
    let mut value = 0;
    let mut rest = table;
    for _block in 0..width {
        value = value * 256 + rest[place] as usize;
        let (_, below) = rest.split_at(count);
        rest = below;
    }
    value
}

/// Reads an offset, the highest byte first, one from each block.
#[inline(always)]
pub(in crate::made::zerotrie_core) fn offset_at(table: &[u8], place: usize, count: usize, width: usize) -> usize {
    if width <= 3 {
        short_offset_at(table, place, count, width)
    } else {
        long_offset_at(table, place, count, width)
    }
}

/// Returns the offsets and the targets of a branch, out of all bytes from its edges on.
#[inline(always)]
pub(in crate::made::zerotrie_core) fn offsets_and_targets(behind: &[u8], edges: usize, width: usize) -> (&[u8], &[u8]) {
    let (_, body) = behind.split_at(edges);
    body.split_at(width * (edges - 1))
}

/// Returns where the target of an edge begins among the targets, by the offset before it.
#[inline(always)]
pub(in crate::made::zerotrie_core) fn begin_at(behind: &[u8], edges: usize, width: usize, index: usize) -> usize {
    if index == 0 {
        return 0;
    }
    let (table, _) = offsets_and_targets(behind, edges, width);
    offset_at(table, index - 1, edges - 1, width)
}

/// Returns where the target of an edge ends, by the next offset; the last one ends with the bytes.
#[inline(always)]
pub(in crate::made::zerotrie_core) fn end_at(behind: &[u8], edges: usize, width: usize, index: usize) -> usize {
    let (table, targets) = offsets_and_targets(behind, edges, width);
    if index == edges - 1 {
        return targets.len();
    }
    offset_at(table, index, edges - 1, width)
}
