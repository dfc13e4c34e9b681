//! The functions of `bindings/c/zerotrie.h`, in plain Rust. The module is made from the proved sources; this file is written by hand.
#![deny(unsafe_code)]

use ::zerotrie::{rstd, zerotrie_all, zerotrie_any, zerotrie_base, zerotrie_build, zerotrie_core};
use ::zerotrie::{zerotrie_index, zerotrie_reverse, zerotrie_sealed, zerotrie_search, zerotrie_sets};

mod zerotrie_c;

/// Bytes that are elsewhere, as `zerotrie_bytes` has them.
#[repr(C)]
#[derive(Clone, Copy)]
struct Slice<'a> {
    ptr: *const u8,
    len: usize,
    of: core::marker::PhantomData<&'a [u8]>,
}

#[allow(unsafe_code)]
impl<'a> Slice<'a> {
    fn of(bytes: &'a [u8]) -> Self {
        Slice { ptr: bytes.as_ptr(), len: bytes.len(), of: core::marker::PhantomData }
    }

    fn get(self) -> &'a [u8] {
        // SAFETY: zerotrie.h says what a caller must keep to.
        unsafe { slice(self.ptr, self.len) }
    }
}

/// Returns the items at a pointer, which may be null if there are none.
#[allow(unsafe_code)]
unsafe fn slice<'a, T>(ptr: *const T, len: usize) -> &'a [T] {
    // SAFETY: as the caller sees to it, there are `len` items, which nobody writes as long as they are used.
    if len == 0 { &[] } else { unsafe { core::slice::from_raw_parts(ptr, len) } }
}

/// Like `slice`, of items that nobody else reads or writes.
#[allow(unsafe_code)]
unsafe fn slice_mut<'a, T>(ptr: *mut T, len: usize) -> &'a mut [T] {
    // SAFETY: as the caller sees to it, there are `len` items, of which there is no other reference as long as they are used.
    if len == 0 { &mut [] } else { unsafe { core::slice::from_raw_parts_mut(ptr, len) } }
}
