// Made from crates/zerotrie_files/src/store.rt by rust/make: edit that.
//! Reads and replacements of whole files.

use crate::rstd::prelude::*;
use crate::zerotrie_files::disk::{Disk, OpenFile};
use crate::zerotrie_files::faults::{is_closed, is_fault};
use crate::zerotrie_files::found::Found;
use crate::zerotrie_files::output::write_output;
use crate::rstd::alloc::Global;
use crate::rstd::io;

/// The files of a disk, read and replaced, with a note of what failed and of how many were opened to be
/// read.
pub struct Store<D> {
    disk: D,
    opened: u64,
    unread: bool,
    unwritten: bool,
    closed: bool,
}

impl<D: Disk> Store<D> {
    /// Returns the files of a disk, of which no call failed so far.
    pub fn new(disk: D) -> Self {
        Store {
            disk,
            opened: 0,
            unread: false,
            unwritten: false,
            closed: false,
        }
    }

    /// Returns the disk.
    pub fn disk(&self) -> &D {
        &self.disk
    }

    /// Returns how many files were opened to be read. No more than 2^64 - 1 are counted.
    pub fn opened(&self) -> u64 {
        self.opened
    }

    /// Returns whether a read failed, for another reason than memory.
    pub fn unread(&self) -> bool {
        self.unread
    }

    /// Returns whether a replacement failed, for another reason than memory.
    pub fn unwritten(&self) -> bool {
        self.unwritten
    }

    /// Returns whether a replacement failed as whoever reads has closed the pipe that the path
    /// names.
    pub fn closed(&self) -> bool {
        self.closed
    }

    /// Opens the file of a path to be read.
    pub fn open(&mut self, path: &str) -> io::Result<D::File> {
        self.opened = self.opened.saturating_add(1);
        let outcome = self.disk.open(path);
        self.unread |= is_fault(&outcome);
        outcome
    }

    /// Reads all of an open file.
    pub fn read(&mut self, alloc: Global, file: D::File) -> io::Result<Vec<u8>> {
        let outcome = file.read_all(alloc);
        self.unread |= is_fault(&outcome);
        outcome
    }

    /// Returns whether there is a file at a path.
    pub fn has(&mut self, path: &str) -> io::Result<bool> {
        let outcome = self.disk.find(path);
        self.unread |= is_fault(&outcome);
        match outcome {
            Ok(Found::Nothing) => Ok(false),
            Ok(_) => Ok(true),
            Err(error) => Err(error),
        }
    }

    /// Replaces the file of a path by the bytes, or makes it, as `write_output` does, and returns how
    /// many files it removed that killed builds left.
    pub fn replace(&mut self, alloc: Global, path: &str, bytes: &[u8]) -> io::Result<usize> {
        let outcome = write_output(alloc, &mut self.disk, path, bytes);
        self.unwritten |= is_fault(&outcome);
        self.closed |= is_closed(&outcome);
        outcome
    }
}
