// Made from crates/zerotrie_c/src/cursors.rt by rust/make: edit that.
//! Cursors, which the caller keeps as numbers.

use crate::zerotrie_c::answers::{tell, tell_edge};
use crate::zerotrie_c::numbers::kind_of;
use crate::zerotrie_core::{CursorPlace, ZeroTrieWithOptions, by_kind};

/// Returns the cursor at the beginning of a trie, of any kind.
pub fn zerotrie_cursor_new(bytes: &[u8]) -> CursorPlace {
    CursorPlace::new(bytes)
}

/// Follows the edge for this byte, as the kind compares bytes. Returns whether there is one, and
/// then sets `edge` to its byte; otherwise the cursor is empty.
pub fn zerotrie_cursor_step(
    kind: u32,
    bytes: &[u8],
    cursor: &mut CursorPlace,
    byte: u8,
    edge: &mut u8,
) -> bool {
    let Some(kind) = kind_of(kind) else {
        *cursor = CursorPlace::nowhere();
        return false;
    };
    match by_kind!(kind, CursorPlace::step::<_>(cursor, bytes, byte)) {
        Some(found) => {
            *edge = found;
            true
        }
        None => false,
    }
}

/// Takes the value at the cursor. Returns whether there is one, and then sets `value`; otherwise
/// nothing changes.
pub fn zerotrie_cursor_take_value(
    bytes: &[u8],
    cursor: &mut CursorPlace,
    value: &mut usize,
) -> bool {
    tell(cursor.take_value(bytes), value)
}

/// Follows the edge with this number. Returns whether there is one, and then sets `edge` to its
/// byte and `siblings` to the number of edges; otherwise the cursor is empty.
pub fn zerotrie_cursor_probe(
    kind: u32,
    bytes: &[u8],
    cursor: &mut CursorPlace,
    index: usize,
    edge: &mut u8,
    siblings: &mut u16,
) -> bool {
    let Some(kind) = kind_of(kind) else {
        *cursor = CursorPlace::nowhere();
        return false;
    };
    let found = by_kind!(kind, CursorPlace::probe::<_>(cursor, bytes, index));
    tell_edge(found, edge, siblings)
}

/// Returns the cursor after a step by each byte of the prefix, in the kind `K`.
fn behind_prefix<K: ZeroTrieWithOptions>(bytes: &[u8], prefix: &[u8]) -> CursorPlace {
    let mut here = CursorPlace::new(bytes);
    for byte in prefix {
        let _edge = here.step::<K>(bytes, *byte);
    }
    here
}

/// Returns the cursor after a prefix, as a step by each of its bytes would leave it. If no key
/// begins with the prefix, its numbers are 0.
pub fn zerotrie_with_prefix(kind: u32, bytes: &[u8], prefix: &[u8]) -> CursorPlace {
    let here = match kind_of(kind) {
        Some(kind) => by_kind!(kind, behind_prefix::<_>(bytes, prefix)),
        None => CursorPlace::nowhere(),
    };
    if here.cursor(bytes).is_empty() {
        CursorPlace::nowhere()
    } else {
        here
    }
}

/// The functions as C calls them: a slice is a pointer and a number of items.
#[allow(unsafe_code)]
mod exports {
    use super::*;

    #[unsafe(no_mangle)]
    unsafe extern "C" fn zerotrie_cursor_new(bytes: *const u8, bytes_len: usize) -> CursorPlace {
        // SAFETY: a caller keeps to what zerotrie.h says.
        unsafe {
            super::zerotrie_cursor_new(crate::slice(bytes, bytes_len))
        }
    }

    #[unsafe(no_mangle)]
    unsafe extern "C" fn zerotrie_cursor_step(
        kind: u32,
        bytes: *const u8,
        bytes_len: usize,
        cursor: *mut CursorPlace,
        byte: u8,
        edge: *mut u8,
    ) -> bool {
        // SAFETY: a caller keeps to what zerotrie.h says.
        unsafe {
            super::zerotrie_cursor_step(
                kind,
                crate::slice(bytes, bytes_len),
                &mut *cursor,
                byte,
                &mut *edge,
            )
        }
    }

    #[unsafe(no_mangle)]
    unsafe extern "C" fn zerotrie_cursor_take_value(
        bytes: *const u8,
        bytes_len: usize,
        cursor: *mut CursorPlace,
        value: *mut usize,
    ) -> bool {
        // SAFETY: a caller keeps to what zerotrie.h says.
        unsafe {
            super::zerotrie_cursor_take_value(
                crate::slice(bytes, bytes_len),
                &mut *cursor,
                &mut *value,
            )
        }
    }

    #[unsafe(no_mangle)]
    unsafe extern "C" fn zerotrie_cursor_probe(
        kind: u32,
        bytes: *const u8,
        bytes_len: usize,
        cursor: *mut CursorPlace,
        index: usize,
        edge: *mut u8,
        siblings: *mut u16,
    ) -> bool {
        // SAFETY: a caller keeps to what zerotrie.h says.
        unsafe {
            super::zerotrie_cursor_probe(
                kind,
                crate::slice(bytes, bytes_len),
                &mut *cursor,
                index,
                &mut *edge,
                &mut *siblings,
            )
        }
    }

    #[unsafe(no_mangle)]
    unsafe extern "C" fn zerotrie_with_prefix(
        kind: u32,
        bytes: *const u8,
        bytes_len: usize,
        prefix: *const u8,
        prefix_len: usize,
    ) -> CursorPlace {
        // SAFETY: a caller keeps to what zerotrie.h says.
        unsafe {
            super::zerotrie_with_prefix(
                kind,
                crate::slice(bytes, bytes_len),
                crate::slice(prefix, prefix_len),
            )
        }
    }
}
