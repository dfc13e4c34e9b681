// Made from crates/zerotrie_c/src/refusals.rt by rust/make: edit that.
//! Which keys show why a build is refused.

use crate::zerotrie_c::builds::{Pair, items_of};
use crate::zerotrie_c::numbers::{DONE, OUT_OF_MEMORY, UNKNOWN_KIND, kind_of, status_of};
use crate::rstd::alloc::{AllocError, Global};
use crate::zerotrie_build::{Refusal, why_iter_refused};
use crate::zerotrie_core::{TrieKind, by_kind};

/// Returns which of the items show why a build of them is refused.
fn why_refused(
    alloc: Global,
    kind: TrieKind,
    items: &[(&[u8], usize)],
) -> Result<Option<Refusal>, AllocError> {
    by_kind!(kind, why_iter_refused::<_, &[u8]>(alloc, items))
}

/// Sets the numbers of the keys that show the error, if there is one, and returns its status.
fn tell(answer: Option<Refusal>, first: &mut usize, second: &mut usize) -> u32 {
    match answer {
        Some(refusal) => {
            *first = refusal.first;
            *second = refusal.second;
            status_of(refusal.error)
        }
        None => DONE,
    }
}

/// Returns the status of a build of these pairs by `zerotrie_build` that keys are the cause of, and
/// sets `first` and `second` to the places of the two keys among the pairs, which are the same
/// place if one key is the cause. The status is `DONE` if no keys are a cause.
pub fn zerotrie_why_refused(
    alloc: Global,
    kind: u32,
    pairs: &[Pair<'_>],
    first: &mut usize,
    second: &mut usize,
) -> u32 {
    let Some(kind) = kind_of(kind) else {
        return UNKNOWN_KIND;
    };
    let Ok(items) = items_of(alloc, pairs) else {
        return OUT_OF_MEMORY;
    };
    match why_refused(alloc, kind, items.as_slice()) {
        Ok(answer) => tell(answer, first, second),
        Err(_) => OUT_OF_MEMORY,
    }
}

/// The functions as C calls them: a slice is a pointer and a number of items.
#[allow(unsafe_code)]
mod exports {
    use super::*;

    #[unsafe(no_mangle)]
    unsafe extern "C" fn zerotrie_why_refused(
        kind: u32,
        pairs: *const Pair<'_>,
        pairs_len: usize,
        first: *mut usize,
        second: *mut usize,
    ) -> u32 {
        // SAFETY: a caller keeps to what zerotrie.h says.
        unsafe {
            super::zerotrie_why_refused(
                Global,
                kind,
                crate::slice(pairs, pairs_len),
                &mut *first,
                &mut *second,
            )
        }
    }
}
