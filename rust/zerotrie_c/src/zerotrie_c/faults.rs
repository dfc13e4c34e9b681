// Made from crates/zerotrie_c/src/faults.rt by rust/make: edit that.
//! The first fault of malformed bytes.

use crate::zerotrie_c::numbers::{DONE, OUT_OF_MEMORY, UNKNOWN_KIND, trie_of};
use crate::rstd::alloc::Global;
use crate::zerotrie_core::{FaultCause, Trie};

/// Returns the number of a rule of the format.
fn number_of(cause: FaultCause) -> u32 {
    match cause {
        FaultCause::NoNode => 1,
        FaultCause::NoSpans => 2,
        FaultCause::UnexpectedEnd => 3,
        FaultCause::ValueAfterValue => 4,
        FaultCause::SpanAfterSpan => 5,
        FaultCause::EmptySpan => 6,
        FaultCause::AsciiInSpan => 7,
        FaultCause::WrongTable => 8,
        FaultCause::WrongWidth => 9,
        FaultCause::WrongOffsets => 10,
    }
}

/// Returns the number of the rule of the format that fails first in the bytes, from 1 on, and sets
/// `at` to the number of bytes before the place where it fails. Returns `DONE` if the bytes are a
/// valid trie of the kind. `OUT_OF_MEMORY` and `UNKNOWN_KIND` are no numbers of rules.
pub fn zerotrie_first_fault(
    alloc: Global,
    kind: u32,
    bytes: &[u8],
    at: &mut usize,
) -> u32 {
    let Some(trie) = trie_of(kind, bytes) else {
        return UNKNOWN_KIND;
    };
    match trie.first_fault(alloc) {
        Ok(Some(fault)) => {
            *at = fault.place;
            number_of(fault.cause)
        }
        Ok(None) => DONE,
        Err(_) => OUT_OF_MEMORY,
    }
}

/// The functions as C calls them: a slice is a pointer and a number of items.
#[allow(unsafe_code)]
mod exports {
    use super::*;

    #[unsafe(no_mangle)]
    unsafe extern "C" fn zerotrie_first_fault(
        kind: u32,
        bytes: *const u8,
        bytes_len: usize,
        at: *mut usize,
    ) -> u32 {
        // SAFETY: a caller keeps to what zerotrie.h says.
        unsafe {
            super::zerotrie_first_fault(
                Global,
                kind,
                crate::slice(bytes, bytes_len),
                &mut *at,
            )
        }
    }
}
