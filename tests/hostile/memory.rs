//! The memory that the program and what it calls take: it can be refused, and is counted. These functions stand in the place of those
//! of the C library.
#![allow(dead_code)]

use std::sync::atomic::{AtomicBool, AtomicUsize, Ordering::Relaxed};

/// How many requests are still granted before one is refused.
static GRANTED: AtomicUsize = AtomicUsize::new(usize::MAX);
/// Whether all requests after the refused one are refused too.
static ALL: AtomicBool = AtomicBool::new(false);
static MET: AtomicBool = AtomicBool::new(false);
static BLOCKS: AtomicUsize = AtomicUsize::new(0);
static BYTES: AtomicUsize = AtomicUsize::new(0);
static PEAK: AtomicUsize = AtomicUsize::new(0);

unsafe extern "C" {
    fn __libc_malloc(size: usize) -> *mut u8;
    fn __libc_calloc(count: usize, size: usize) -> *mut u8;
    fn __libc_memalign(align: usize, size: usize) -> *mut u8;
    fn __libc_realloc(block: *mut u8, size: usize) -> *mut u8;
    fn __libc_free(block: *mut u8);
    fn malloc_usable_size(block: *mut u8) -> usize;
}

/// Refuses the request after this many, and, if asked, all that follow.
pub fn refuse(granted: usize, all: bool) {
    ALL.store(all, Relaxed);
    MET.store(false, Relaxed);
    GRANTED.store(granted, Relaxed);
}

/// Grants all requests again, and says whether one was refused.
pub fn grant() -> bool {
    GRANTED.store(usize::MAX, Relaxed);
    MET.load(Relaxed)
}

/// How many blocks are held.
pub fn blocks() -> usize {
    BLOCKS.load(Relaxed)
}

/// How many bytes are held.
pub fn held() -> usize {
    BYTES.load(Relaxed)
}

/// The most bytes that were held at once since the last call.
pub fn peak() -> usize {
    PEAK.swap(BYTES.load(Relaxed), Relaxed)
}

fn is_refused() -> bool {
    let granted = GRANTED.load(Relaxed);
    if granted == usize::MAX {
        return false;
    }
    if granted > 0 {
        GRANTED.store(granted - 1, Relaxed);
        return false;
    }
    if MET.swap(true, Relaxed) { ALL.load(Relaxed) } else { true }
}

/// Counts a block that was given, if there is one.
fn taken(block: *mut u8) -> *mut u8 {
    if !block.is_null() {
        // SAFETY: the block was just given.
        let size = unsafe { malloc_usable_size(block) };
        PEAK.fetch_max(BYTES.fetch_add(size, Relaxed) + size, Relaxed);
        BLOCKS.fetch_add(1, Relaxed);
    }
    block
}

// SAFETY of all below: a caller asks for any size, and gives back what it holds.

#[unsafe(no_mangle)]
extern "C" fn malloc(size: usize) -> *mut u8 {
    if is_refused() { std::ptr::null_mut() } else { taken(unsafe { __libc_malloc(size) }) }
}

#[unsafe(no_mangle)]
extern "C" fn calloc(count: usize, size: usize) -> *mut u8 {
    if is_refused() { std::ptr::null_mut() } else { taken(unsafe { __libc_calloc(count, size) }) }
}

#[unsafe(no_mangle)]
extern "C" fn posix_memalign(place: &mut *mut u8, align: usize, size: usize) -> i32 {
    const OUT_OF_MEMORY: i32 = 12;
    let block = if is_refused() { std::ptr::null_mut() } else { taken(unsafe { __libc_memalign(align, size) }) };
    if block.is_null() {
        return OUT_OF_MEMORY;
    }
    *place = block;
    0
}

#[unsafe(no_mangle)]
extern "C" fn realloc(block: *mut u8, size: usize) -> *mut u8 {
    let held = if block.is_null() { 0 } else { unsafe { malloc_usable_size(block) } };
    // Rust's std ends the program where a block can't shrink
    let is_granted = cfg!(plain) && size <= held;
    if !is_granted && is_refused() {
        return std::ptr::null_mut();
    }
    // where it can't be moved it is left as it is
    let moved = unsafe { __libc_realloc(block, size) };
    if !block.is_null() && (!moved.is_null() || size == 0) {
        BYTES.fetch_sub(held, Relaxed);
        BLOCKS.fetch_sub(1, Relaxed);
    }
    taken(moved)
}

#[unsafe(no_mangle)]
extern "C" fn free(block: *mut u8) {
    if !block.is_null() {
        BYTES.fetch_sub(unsafe { malloc_usable_size(block) }, Relaxed);
        BLOCKS.fetch_sub(1, Relaxed);
        unsafe { __libc_free(block) }
    }
}
