// Made from crates/zerotrie_session/src/noted.rt by rust/make: edit that.
//! Readers and writers that remember whether a call failed or found the end.

use crate::rstd::io;
use crate::rstd::io::{Read, Write};

/// A reader or writer with two flags: its first error sets one, and the first read at the end the
/// other.
///
/// ```text
/// let mut reader = Noted::new(stdin);
/// let count = reader.read(&mut buffer);   // as stdin's own
/// reader.failed()                         // whether some call has failed
/// reader.ended()                          // whether some read has found the end
/// ```
#[derive(Debug)]
pub struct Noted<T> {
    inner: T,
    failed: bool,
    ended: bool,
}

impl<T> Noted<T> {
    /// Returns it with no error and no end so far.
    pub fn new(inner: T) -> Self {
        Noted {
            inner,
            failed: false,
            ended: false,
        }
    }

    /// Returns whether some call failed.
    pub fn failed(&self) -> bool {
        self.failed
    }

    /// Returns whether some read found the end.
    pub fn ended(&self) -> bool {
        self.ended
    }

    /// Returns the reader or writer itself.
    pub fn into_inner(self) -> T {
        let Noted { inner, .. } = self;
        inner
    }
}

impl<R: Read> Read for Noted<R> {
    fn read(&mut self, buf: &mut [u8]) -> io::Result<usize> {
        let has_room = !buf.is_empty();
        let outcome = self.inner.read(buf);
        self.failed |= outcome.is_err();
        self.ended |= has_room && matches!(outcome, Ok(0));
        outcome
    }
}

impl<W: Write> Write for Noted<W> {
    fn write(&mut self, buf: &[u8]) -> io::Result<usize> {
        let outcome = self.inner.write(buf);
        self.failed |= outcome.is_err();
        outcome
    }

    fn flush(&mut self) -> io::Result<()> {
        let outcome = self.inner.flush();
        self.failed |= outcome.is_err();
        outcome
    }

    fn write_all(&mut self, buf: &[u8]) -> io::Result<()> {
        let outcome = self.inner.write_all(buf);
        self.failed |= outcome.is_err();
        outcome
    }
}
