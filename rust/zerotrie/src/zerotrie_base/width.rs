// Made from crates/zerotrie_base/src/width.rt by rust/make: edit that.
//! The width of the offsets of a branch.

/// Returns the least width field of a branch whose targets have this many bytes in total: the least
/// number w with `total` below 256^(w + 1).
///
/// ```
/// # use zerotrie::{rstd::examples::*, zerotrie_base::*};
/// assert_eq!(least_width(255), 0);
/// assert_eq!(least_width(256), 1);
/// # Ok::<(), Fail>(())
/// ```
pub fn least_width(total: usize) -> usize {
    total.max(1).ilog2() as usize / 8
}
