// Made from crates/zerotrie_run/src/place.rt by rust/make: edit that.
//! Reads and writes of whole files and streams.

use crate::rstd::prelude::*;
use crate::zerotrie_run::command::Place;
use crate::rstd::alloc::Global;
use crate::rstd::io;
use crate::rstd::io::{BufWriter, Read, Write};
use crate::zerotrie_files::{Disk, Noted, Store};

/// A place that is open to be read.
pub enum Opened<F> {
    File(F),
    /// Standard input.
    Stream,
}

/// Opens a place to be read.
pub fn open_place<D: Disk>(place: Place<'_>, files: &mut Store<D>) -> io::Result<Opened<D::File>> {
    match place {
        Place::File(path) => Ok(Opened::File(files.open(path)?)),
        Place::Stream => Ok(Opened::Stream),
    }
}

/// Reads all bytes of an open place.
pub fn read_opened<D: Disk, R: Read>(
    alloc: Global,
    opened: Opened<D::File>,
    files: &mut Store<D>,
    input: &mut Noted<R>,
) -> io::Result<Vec<u8>> {
    match opened {
        Opened::File(file) => files.read(alloc, file),
        Opened::Stream => input.read_all(alloc),
    }
}

/// Opens a place and reads all of its bytes.
pub fn read_place<D: Disk, R: Read>(
    alloc: Global,
    place: Place<'_>,
    files: &mut Store<D>,
    input: &mut Noted<R>,
) -> io::Result<Vec<u8>> {
    let opened = open_place(place, files)?;
    read_opened(alloc, opened, files, input)
}

/// Writes bytes to a place: replaces its file, or prints them and flushes the buffer. If that
/// fails, the file is unchanged, or a beginning of them was printed. Returns how many files it removed
/// that killed builds of the file left beside it.
pub fn write_place<D: Disk, W: Write>(
    alloc: Global,
    place: Place<'_>,
    bytes: &[u8],
    files: &mut Store<D>,
    output: &mut Noted<BufWriter<W>>,
) -> io::Result<usize> {
    match place {
        Place::File(path) => files.replace(alloc, path, bytes),
        Place::Stream => {
            output.write_bytes(bytes)?;
            output.hand_on()?;
            Ok(0)
        }
    }
}
