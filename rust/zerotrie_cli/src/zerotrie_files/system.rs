// Made from crates/zerotrie_files/src/system.rt by rust/make: edit that.
//! The file system, of which no clause says what its files hold.

use crate::rstd::prelude::*;
use crate::zerotrie_files::disk::{Disk, OpenFile};
use crate::zerotrie_files::found::{Found, Mode};
use crate::rstd::alloc::Global;
use crate::rstd::fs::{File, Metadata, OpenOptions, Permissions, TryLockError};
use crate::rstd::io::{ErrorKind, Read, Write};
use crate::rstd::os::unix::fs::{FileExt, MetadataExt, PermissionsExt};
use crate::rstd::process::Process;
use crate::rstd::random::RandomSource;
use crate::rstd::rt::Files;
use crate::rstd::{fs, io, process};

/// The files of the system.
pub struct SystemDisk<'a, R> {
    system: &'a R,
    process: Process,
    /// The file that was made or held last, with its lock.
    held: Option<File>,
}

impl<'a, R> SystemDisk<'a, R> {
    /// Returns the files of the system, for this process.
    pub fn new(system: &'a R, process: Process) -> Self {
        SystemDisk {
            system,
            process,
            held: None,
        }
    }
}

impl<'a, R: Files<File = File>> SystemDisk<'a, R> {
    /// Returns whether a path still leads to an open file, which is regular and has no other name.
    fn leads_to(&self, path: &str, file: &File) -> bool {
        match (fs::symlink_metadata(self.system, path), file.metadata()) {
            (Ok(there), Ok(opened)) => {
                there.is_file()
                    && there.nlink() == 1
                    && (there.dev(), there.ino()) == (opened.dev(), opened.ino())
            }
            _ => false,
        }
    }
}

/// Returns what the system found.
fn found(metadata: &Metadata) -> Found {
    if metadata.is_dir() {
        Found::Folder
    } else if metadata.is_file() {
        Found::File(Mode::kept(metadata.permissions().mode()))
    } else {
        Found::Stream
    }
}

/// Writes the bytes to a new file, and syncs it.
fn fill(file: &mut File, mode: Option<Mode>, bytes: &[u8]) -> io::Result<()> {
    if let Some(mode) = mode {
        file.set_permissions(Permissions::from_mode(mode.bits()))?;
    }
    file.write_all(bytes)?;
    file.sync_all()
}

impl OpenFile for File {
    fn read_part(&self, place: u64, room: &mut [u8]) -> io::Result<()> {
        self.read_exact_at(room, place)
    }

    fn read_all(self, alloc: Global) -> io::Result<Vec<u8>> {
        let mut file = self;
        let mut bytes = Vec::new(alloc);
        let size = file.metadata()?.len();
        bytes.reserve(usize::try_from(size).unwrap_or(0).saturating_add(1))?;
        file.read_to_end(&mut bytes)?;
        Ok(bytes)
    }
}

impl<'a, R: Files<File = File> + AllocGlobal + RandomSource + Clone> Disk
    for SystemDisk<'a, R> {
    type File = File;

    fn open(&mut self, path: &str) -> io::Result<File> {
        File::open(self.system, path)
    }

    fn find(&self, path: &str) -> io::Result<Found> {
        match fs::metadata(self.system, path) {
            Ok(metadata) => Ok(found(&metadata)),
            Err(error)
                if error.kind() == ErrorKind::NotFound
                    && fs::symlink_metadata(self.system, path).is_err() => { Ok(Found::Nothing) }
            Err(error) => Err(error),
        }
    }

    fn test_writable(&self, path: &str) -> io::Result<()> {
        OpenOptions::new().write(true).open(self.system, path)?;
        Ok(())
    }

    fn real_path(&self, path: &str) -> io::Result<String> {
        Ok(fs::canonicalize(self.system, path)?.into_string())
    }

    fn process(&self) -> u32 {
        process::id(self.process)
    }

    fn draw(&self, tried: u32) -> u32 {
        let mut bytes = [0; 4];
        match self.system.fill_bytes(&mut bytes) {
            Ok(()) => u32::from_le_bytes(bytes),
            // the number of the process is in the name, too, and no file is opened that is there
            Err(_) => tried,
        }
    }

    fn names(&self, folder: &str, begin: &str) -> io::Result<Vec<String>> {
        let mut names = Vec::new(self.system.alloc());
        for entry in fs::read_dir(self.system, folder)? {
            // a name that is not UTF-8 is an error, and is no name of a new file
            if let Ok(entry) = entry {
                if entry.file_name().starts_with(begin) {
                    names.push(crate::rstd::string::from_str(self.system.alloc(), entry.file_name())?)?;
                }
            }
        }
        Ok(names)
    }

    fn hold(&mut self, path: &str) -> io::Result<Option<Vec<u8>>> {
        // to open a FIFO would wait for its writer
        if !fs::symlink_metadata(self.system, path)?.is_file() {
            return Ok(None);
        }
        let file = File::open(self.system, path)?;
        file.try_lock()?;
        if !self.leads_to(path, &file) {
            return Ok(None);
        }
        let mut room = [0; 8];
        let count = file.read_at(&mut room, 0)?;
        self.held = Some(file);
        Ok(Some(Vec::from_slice(self.system.alloc(), &room[..count])?))
    }

    fn remove_held(&mut self, path: &str) -> io::Result<()> {
        fs::remove_file(self.system, path)
    }

    fn make(&mut self, path: &str) -> io::Result<bool> {
        let file = match File::create_new(self.system, path) {
            Ok(file) => file,
            Err(error) if error.kind() == ErrorKind::AlreadyExists => return Ok(false),
            Err(error) => return Err(error),
        };
        // until it has its lock, another build may take it for one that was left, and remove it
        let is_there = match file.try_lock() {
            Ok(()) => self.leads_to(path, &file),
            Err(TryLockError::WouldBlock) => false,
            // files have no locks here, so no build removes one
            Err(TryLockError::Error(_)) => true,
        };
        self.held = Some(file);
        Ok(is_there)
    }

    fn fill(&mut self, _path: &str, mode: Option<Mode>, bytes: &[u8]) -> io::Result<()> {
        match &mut self.held {
            // the lock stays until the file is renamed
            Some(file) => fill(file, mode, bytes),
            None => Err(io::Error::from(ErrorKind::NotFound)),
        }
    }

    fn rename(&mut self, from: &str, to: &str) -> io::Result<()> {
        fs::rename(self.system, from, to)
    }

    fn remove(&mut self, path: &str) -> io::Result<()> {
        fs::remove_file(self.system, path)
    }

    fn append(&mut self, path: &str, bytes: &[u8]) -> io::Result<()> {
        let mut stream = OpenOptions::new().append(true).open(self.system, path)?;
        stream.write_all(bytes)
    }
}
