// Made from crates/zerotrie_files/src/disk.rt by rust/make: edit that.
//! The calls of a file system that read a file and replace one.

use crate::rstd::prelude::*;
use crate::zerotrie_files::found::{Found, Mode};
use crate::rstd::alloc::Global;
use crate::rstd::io;

/// A file that is open, to be read at places and then as a whole.
pub trait OpenFile {
    /// Fills the room with its bytes from this place on. A file that has fewer is an error, and so is a
    /// stream, of which nothing is read.
    fn read_part(&self, place: u64, room: &mut [u8]) -> io::Result<()>;

    /// Reads all of its bytes.
    fn read_all(self, alloc: Global) -> io::Result<Vec<u8>>;
}

/// Where files are read, written, renamed and removed.
pub trait Disk {
    /// An open file.
    type File: OpenFile;

    /// Opens the file of a path to be read. Nothing changes; but who has only lent the disk opens none.
    fn open(&mut self, path: &str) -> io::Result<Self::File>;

    /// Returns what a path leads to, by whatever links. A link to nothing is an error.
    fn find(&self, path: &str) -> io::Result<Found>;

    /// Tests that the file of a path can be written.
    fn test_writable(&self, path: &str) -> io::Result<()>;

    /// Returns the path of a file without links. A disk that tells what its files hold has none.
    fn real_path(&self, path: &str) -> io::Result<String>;

    /// Returns the number of the process, which is part of the name of a new file.
    fn process(&self) -> u32;

    /// Returns a number for the name of a new file: another for each try and, if the system has
    /// such numbers, one that nobody can foretell.
    fn draw(&self, tried: u32) -> u32;

    /// Returns the names in a folder that begin so. Some may be left out.
    fn names(&self, folder: &str, begin: &str) -> io::Result<Vec<String>>;

    /// Holds a file until another one is held or made, and returns its first 8 bytes, or all if it
    /// has fewer. `None` says that it is no regular file, has another name as well, or is no longer
    /// there. One that another process holds is an error.
    fn hold(&mut self, path: &str) -> io::Result<Option<Vec<u8>>>;

    /// Removes a file, which is held, atomically.
    fn remove_held(&mut self, path: &str) -> io::Result<()>;

    /// Makes an empty file, if the path is free, and holds it. Returns `false` if the path has a
    /// file, a link or a folder, which stays, or if another process removed the new file before it
    /// was held.
    fn make(&mut self, path: &str) -> io::Result<bool>;

    /// Writes the bytes to the file of a path, which was the last to be made, with this mode, and
    /// syncs it before it returns.
    fn fill(&mut self, path: &str, mode: Option<Mode>, bytes: &[u8]) -> io::Result<()>;

    /// Moves a file to another path, and replaces the file there, atomically.
    fn rename(&mut self, from: &str, to: &str) -> io::Result<()>;

    /// Removes a file, which `make` made.
    fn remove(&mut self, path: &str) -> io::Result<()>;

    /// Writes the bytes to a device or a pipe, or to the end of an open file. A disk that tells
    /// what its files hold has none of these.
    fn append(&mut self, path: &str, bytes: &[u8]) -> io::Result<()>;
}
