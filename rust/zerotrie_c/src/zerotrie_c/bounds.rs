// Made from crates/zerotrie_c/src/bounds.rt by rust/make: edit that.
//! How many bytes a build needs at most.

/// Returns a number of bytes that is enough for each build of so many pairs whose keys have so many
/// bytes together: 20 for a pair and 2 for a byte of a key, or the greatest number if that is more.
pub fn zerotrie_build_bound(count: usize, key_bytes: usize) -> usize {
    count
        .saturating_mul(20)
        .saturating_add(key_bytes.saturating_mul(2))
}

/// The functions as C calls them: a slice is a pointer and a number of items.
#[allow(unsafe_code)]
mod exports {
    use super::*;

    #[unsafe(no_mangle)]
    extern "C" fn zerotrie_build_bound(count: usize, key_bytes: usize) -> usize {
        super::zerotrie_build_bound(count, key_bytes)
    }
}
