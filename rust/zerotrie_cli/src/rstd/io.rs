//! Streams, which are std's own.
use super::alloc::{AllocError, Allocator};
pub use std::io::{Error, ErrorKind, IsTerminal, Read, Result, Write, sink};

/// A writer that gathers what is written.
#[derive(Debug)]
pub struct BufWriter<W: Write>(std::io::BufWriter<W>);

impl<W: Write> BufWriter<W> {
    pub fn new<A: Allocator>(_: A, inner: W) -> std::result::Result<Self, AllocError> {
        Ok(BufWriter(std::io::BufWriter::new(inner)))
    }
}

impl<W: Write> Write for BufWriter<W> {
    fn write(&mut self, bytes: &[u8]) -> Result<usize> {
        self.0.write(bytes)
    }

    fn flush(&mut self) -> Result<()> {
        self.0.flush()
    }
}
