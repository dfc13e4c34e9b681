//! Files, by functions that take the system first.
use super::io;
pub use std::fs::{Metadata, Permissions, TryLockError};
use std::ops;

pub struct File(std::fs::File);

impl File {
    pub fn open<R>(_: &R, path: &str) -> io::Result<Self> {
        std::fs::File::open(path).map(File)
    }

    pub fn create_new<R>(_: &R, path: &str) -> io::Result<Self> {
        std::fs::File::create_new(path).map(File)
    }
}

impl ops::Deref for File {
    type Target = std::fs::File;
    fn deref(&self) -> &std::fs::File {
        &self.0
    }
}

impl ops::DerefMut for File {
    fn deref_mut(&mut self) -> &mut std::fs::File {
        &mut self.0
    }
}

pub struct OpenOptions(std::fs::OpenOptions);

impl OpenOptions {
    pub fn new() -> Self {
        OpenOptions(std::fs::OpenOptions::new())
    }

    pub fn write(mut self, is_wanted: bool) -> Self {
        self.0.write(is_wanted);
        self
    }

    pub fn append(mut self, is_wanted: bool) -> Self {
        self.0.append(is_wanted);
        self
    }

    pub fn open<R>(self, _: &R, path: &str) -> io::Result<File> {
        self.0.open(path).map(File)
    }
}

pub fn metadata<R>(_: &R, path: &str) -> io::Result<Metadata> {
    std::fs::metadata(path)
}

pub fn symlink_metadata<R>(_: &R, path: &str) -> io::Result<Metadata> {
    std::fs::symlink_metadata(path)
}

pub fn remove_file<R>(_: &R, path: &str) -> io::Result<()> {
    std::fs::remove_file(path)
}

pub fn rename<R>(_: &R, from: &str, to: &str) -> io::Result<()> {
    std::fs::rename(from, to)
}

/// A path, or the name of an entry.
#[derive(PartialEq, Eq)]
pub struct Path(String);

impl Path {
    fn of(path: std::ffi::OsString) -> io::Result<Self> {
        path.into_string().map(Path).map_err(|_| io::ErrorKind::InvalidData.into())
    }

    pub fn into_string(self) -> String {
        self.0
    }

    pub fn file_name(&self) -> &str {
        &self.0
    }
}

/// It is an error if the path without links is not UTF-8.
pub fn canonicalize<R>(_: &R, path: &str) -> io::Result<Path> {
    Path::of(std::fs::canonicalize(path)?.into_os_string())
}

/// An entry whose name is not UTF-8 is an error.
pub fn read_dir<R>(_: &R, path: &str) -> io::Result<impl Iterator<Item = io::Result<Path>>> {
    Ok(std::fs::read_dir(path)?.map(|entry| Path::of(entry?.file_name())))
}
