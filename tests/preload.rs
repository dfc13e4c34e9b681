//! Refuses a program one of its requests for memory: the one after as many as the variable GRANTED says, and all
//! that follow where ALL is set. Then it says so on standard error.
#![no_std]

use core::sync::atomic::{AtomicUsize, Ordering::Relaxed};

static ASKED: AtomicUsize = AtomicUsize::new(0);

unsafe extern "C" {
    fn __libc_malloc(size: usize) -> *mut u8;
    fn __libc_realloc(block: *mut u8, size: usize) -> *mut u8;
    fn getenv(name: *const u8) -> *const u8;
    fn atol(text: *const u8) -> isize;
    fn write(to: i32, bytes: *const u8, len: usize) -> isize;
    fn abort() -> !;
}

fn is_refused() -> bool {
    let asked = ASKED.fetch_add(1, Relaxed);
    // SAFETY: names and text end in zero.
    let (granted, all) = unsafe {
        let granted = getenv(c"GRANTED".as_ptr().cast());
        if granted.is_null() {
            return false;
        }
        (atol(granted) as usize, !getenv(c"ALL".as_ptr().cast()).is_null())
    };
    if asked < granted || (asked > granted && !all) {
        return false;
    }
    if asked == granted {
        // SAFETY: the text has eight bytes.
        unsafe { write(2, b"refused\n".as_ptr(), 8) };
    }
    true
}

#[unsafe(no_mangle)]
extern "C" fn malloc(size: usize) -> *mut u8 {
    if is_refused() {
        return core::ptr::null_mut();
    }
    // SAFETY: any size may be asked for.
    unsafe { __libc_malloc(size) }
}

#[unsafe(no_mangle)]
extern "C" fn realloc(block: *mut u8, size: usize) -> *mut u8 {
    if is_refused() {
        return core::ptr::null_mut();
    }
    // SAFETY: the caller holds the block.
    unsafe { __libc_realloc(block, size) }
}

#[panic_handler]
fn panic(_: &core::panic::PanicInfo) -> ! {
    // SAFETY: it ends the program.
    unsafe { abort() }
}
