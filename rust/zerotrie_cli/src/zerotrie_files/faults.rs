// Made from crates/zerotrie_files/src/faults.rt by rust/make: edit that.
//! What failed.

use crate::rstd::io;
use crate::rstd::io::ErrorKind;

/// Returns whether a call failed, for another reason than memory.
pub fn is_fault<T>(outcome: &io::Result<T>) -> bool {
    match outcome {
        Ok(_) => false,
        Err(error) => error.kind() != ErrorKind::OutOfMemory,
    }
}

/// Returns whether a write failed as whoever reads has closed the pipe.
pub fn is_closed<T>(outcome: &io::Result<T>) -> bool {
    match outcome {
        Ok(_) => false,
        Err(error) => error.kind() == ErrorKind::BrokenPipe,
    }
}
