// Made from crates/zerotrie_files/src/writing.rt by rust/make: edit that.
//! Bytes that are written whole, or, if that fails, a beginning of them.

use crate::rstd::io;
use crate::rstd::io::{ErrorKind, Write};

/// Writes bytes, as `write_all` does. If it fails, a beginning of them was written. A write that a
/// signal interrupts is made again.
pub fn write_bytes<W: Write>(output: &mut W, bytes: &[u8]) -> io::Result<()> {
    let mut rest = bytes;
    // each loop has to end: no writer is interrupted so often
    for _ in 0..u64::MAX {
        if rest.is_empty() {
            return Ok(());
        }
        match output.write(rest) {
            Ok(0) => return Err(ErrorKind::WriteZero.into()),
            Ok(count) => {
                let (_, left) = rest.split_at(count);
                rest = left;
            }
            Err(error) if error.kind() == ErrorKind::Interrupted => {}
            Err(error) => return Err(error),
        }
    }
    Err(ErrorKind::TimedOut.into())
}
