// Made from crates/zerotrie_files/src/noted.rt by rust/make: edit that.
//! Readers and writers that remember whether a call failed.

use crate::rstd::prelude::*;
use crate::zerotrie_files::faults::{is_closed, is_fault};
use crate::zerotrie_files::writing::write_bytes;
use crate::rstd::alloc::Global;
use crate::rstd::io;
use crate::rstd::io::{BufWriter, ErrorKind, Read, Write};

/// The size of one read. The lines and answers of so few bytes fit in memory that the allocator
/// keeps for the next read.
const ROOM: usize = 1 << 14;

/// A reader or writer with a flag that is set from its first fault on, and one that is set if a
/// write failed as whoever reads has closed the pipe. A call that a signal interrupts is made
/// again, and is no fault.
#[derive(Debug)]
pub struct Noted<T> {
    inner: T,
    failed: bool,
    closed: bool,
}

impl<T> Noted<T> {
    /// Returns a reader or writer with no fault so far.
    pub fn new(inner: T) -> Self {
        Noted {
            inner,
            failed: false,
            closed: false,
        }
    }

    /// Returns whether some call failed.
    pub fn failed(&self) -> bool {
        self.failed
    }

    /// Returns whether some write failed as whoever reads has closed the pipe.
    pub fn closed(&self) -> bool {
        self.closed
    }

    /// Returns the reader or writer itself.
    pub fn get_ref(&self) -> &T {
        &self.inner
    }
}

impl<R: Read> Noted<R> {
    /// Reads once, at most 16 KiB, appends the bytes to `held`, and returns whether the stream has
    /// ended. A read that a signal interrupts adds nothing. If the read fails, the stream has what
    /// it had.
    pub fn read_more(&mut self, held: &mut Vec<u8>) -> io::Result<bool> {
        let mut room = [0; ROOM];
        match self.inner.read(&mut room) {
            Ok(count) => {
                held.extend_from_slice(&room[..count])?;
                Ok(count == 0)
            }
            Err(error) if error.kind() == ErrorKind::Interrupted => Ok(false),
            Err(error) => {
                self.failed = true;
                Err(error)
            }
        }
    }

    /// Reads the rest of a stream.
    pub fn read_all(&mut self, alloc: Global) -> io::Result<Vec<u8>> {
        let mut bytes = Vec::new(alloc);
        let outcome = self.inner.read_to_end(&mut bytes);
        self.failed |= is_fault(&outcome);
        match outcome {
            Ok(_) => Ok(bytes),
            Err(error) => Err(error),
        }
    }
}

impl<W: Write> Noted<W> {
    /// Writes bytes. If it fails, a beginning of them was written.
    pub fn write_bytes(&mut self, bytes: &[u8]) -> io::Result<()> {
        let outcome = write_bytes(&mut self.inner, bytes);
        self.failed |= outcome.is_err();
        self.closed |= is_closed(&outcome);
        outcome
    }
}

impl<W: Write> Noted<BufWriter<W>> {
    /// Writes all that the buffer holds to the writer.
    pub fn hand_on(&mut self) -> io::Result<()> {
        let outcome = self.inner.flush();
        self.failed |= outcome.is_err();
        self.closed |= is_closed(&outcome);
        outcome
    }
}
