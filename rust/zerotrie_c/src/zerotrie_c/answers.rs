// Made from crates/zerotrie_c/src/answers.rt by rust/make: edit that.
//! What is found, as C is told of it.

use crate::zerotrie_core::ByteProbeResult;

/// Returns whether something is found, and then sets `value` to it.
pub fn tell(found: Option<usize>, value: &mut usize) -> bool {
    match found {
        Some(found) => {
            *value = found;
            true
        }
        None => false,
    }
}

/// Returns whether a key is found, and then sets `len` and `value` to its length and its value.
pub fn tell_both(found: Option<(usize, usize)>, len: &mut usize, value: &mut usize) -> bool {
    match found {
        Some((length, found)) => {
            *len = length;
            *value = found;
            true
        }
        None => false,
    }
}

/// Returns whether an edge is found, and then sets `edge` to its byte and `siblings` to the number
/// of edges.
pub fn tell_edge(found: Option<ByteProbeResult>, edge: &mut u8, siblings: &mut u16) -> bool {
    match found {
        Some(found) => {
            *edge = found.byte;
            *siblings = found.total_siblings;
            true
        }
        None => false,
    }
}
