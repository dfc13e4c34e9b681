//! Allocators, and the errors if one has no memory left. There is one, Rust's own.
use core::fmt;

/// An allocation failed.
#[derive(Clone, Copy, Debug, PartialEq, Eq)]
pub struct AllocError;

/// An allocation failed, and this was not taken.
#[derive(Debug)]
pub struct AllocFailed<T>(pub T);

/// Rust's global allocator.
#[derive(Clone, Copy, Debug, Default, PartialEq, Eq)]
pub struct Global;

pub trait Allocator {}
impl Allocator for Global {}
impl<A: Allocator> Allocator for &A {}

impl core::error::Error for AllocError {}

impl fmt::Display for AllocError {
    fn fmt(&self, f: &mut fmt::Formatter<'_>) -> fmt::Result {
        f.write_str("out of memory")
    }
}

impl From<alloc::collections::TryReserveError> for AllocError {
    fn from(_: alloc::collections::TryReserveError) -> Self {
        AllocError
    }
}

impl<T> From<AllocFailed<T>> for AllocError {
    fn from(_: AllocFailed<T>) -> Self {
        AllocError
    }
}

impl<T> From<AllocFailed<T>> for alloc::boxed::Box<dyn core::error::Error> {
    fn from(_: AllocFailed<T>) -> Self {
        AllocError.into()
    }
}

#[cfg(feature = "__std")]
impl From<AllocError> for std::io::Error {
    fn from(_: AllocError) -> Self {
        std::io::ErrorKind::OutOfMemory.into()
    }
}

#[cfg(feature = "__std")]
impl<T> From<AllocFailed<T>> for std::io::Error {
    fn from(_: AllocFailed<T>) -> Self {
        AllocError.into()
    }
}
