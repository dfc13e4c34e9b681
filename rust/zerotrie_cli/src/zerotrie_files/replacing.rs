// Made from crates/zerotrie_files/src/replacing.rt by rust/make: edit that.
//! Atomic replacement of a file.

use crate::rstd::prelude::*;
use crate::zerotrie_files::disk::Disk;
use crate::zerotrie_files::found::Mode;
use crate::rstd::alloc::{AllocError, Global};
use crate::rstd::io;
use crate::rstd::io::ErrorKind;
use crate::zerotrie_sealed::begins_magic;

/// How many paths beside a file are tried.
const MOST_TRIES: u32 = 100;

/// Fills the new file at `beside` and renames it to the path.
fn take_path<D: Disk>(
    disk: &mut D,
    path: &str,
    beside: &str,
    mode: Option<Mode>,
    bytes: &[u8],
) -> io::Result<()> {
    disk.fill(beside, mode, bytes)?;
    disk.rename(beside, path)
}

/// Replaces the file of a path by these bytes, or makes it: writes them to a new file at `beside`
/// with this mode and renames it. Returns `false` if `beside` has a file already, and then no file
/// changes.
///
/// At each moment the file holds its old bytes or all of the new ones, and all other files what
/// they held. After an error the new file is removed, and then all files are as they were. If the
/// removal fails, too, the new file alone is left.
pub fn replace<D: Disk>(
    disk: &mut D,
    path: &str,
    beside: &str,
    mode: Option<Mode>,
    bytes: &[u8],
) -> io::Result<bool> {
    if !disk.make(beside)? {
        return Ok(false);
    }
    match take_path(disk, path, beside, mode, bytes) {
        Ok(()) => Ok(true),
        Err(error) => {
            let _ = disk.remove(beside);
            Err(error)
        }
    }
}

/// Returns what the names of new files begin with: `.NAME.zerotrie-`.
fn own_front(alloc: Global, name: &str) -> Result<String, AllocError> {
    Ok::<_, crate::rstd::alloc::AllocError>(format!(".{name}.zerotrie-"))
}

/// Returns the name of a new file: `.NAME.zerotrie-PROCESS-NUMBER`.
fn own_name(alloc: Global, name: &str, process: u32, number: u32) -> Result<String, AllocError> {
    let mut own = own_front(alloc, name)?;
    write!(own, "{process}-{number}")?;
    Ok(own)
}

/// Returns the path of a file in a folder.
fn path_in(alloc: Global, folder: &str, name: &str) -> Result<String, AllocError> {
    Ok::<_, crate::rstd::alloc::AllocError>(format!("{folder}/{name}"))
}

/// Returns the path of a new file beside the file of a path: in the same folder, by the name of the
/// file.
fn path_beside(alloc: Global, path: &str, process: u32, number: u32) -> Result<String, AllocError> {
    match path.rsplit_once('/') {
        None => own_name(alloc, path, process, number),
        Some((folder, name)) => {
            let own = own_name(alloc, name, process, number)?;
            path_in(alloc, folder, own.as_str())
        }
    }
}

/// Returns the numbers in the name of a new file, after what such names begin with.
fn numbers_in(name: &str, front: &str) -> Option<(u32, u32)> {
    let (process, number) = name.strip_prefix(front)?.split_once('-')?;
    Some((process.parse().ok()?, number.parse().ok()?))
}

/// Removes a file if a killed build left it, and returns whether it did.
fn remove_left<D: Disk>(disk: &mut D, path: &str) -> io::Result<bool> {
    match disk.hold(path)? {
        Some(front) if begins_magic(front.as_slice()) => {
            disk.remove_held(path)?;
            Ok(true)
        }
        _ => Ok(false),
    }
}

/// Removes the file of this name in the folder of a path, if a killed build of the file of the path
/// left it, and returns whether it did. `front` is what such names begin with.
fn remove_named<D: Disk>(
    alloc: Global,
    disk: &mut D,
    path: &str,
    name: &str,
    front: &str,
) -> io::Result<bool> {
    match numbers_in(name, front) {
        Some((process, number)) => {
            let left = path_beside(alloc, path, process, number)?;
            remove_left(disk, left.as_str())
        }
        None => Ok(false),
    }
}

/// Removes the files that killed builds left beside the file of a path, and returns how many. One
/// that can't be opened, held or removed stays.
fn remove_all_left<D: Disk>(alloc: Global, disk: &mut D, path: &str) -> io::Result<usize> {
    let (folder, name) = match path.rsplit_once('/') {
        None => (".", path),
        Some(("", name)) => ("/", name),
        Some(parts) => parts,
    };
    let front = own_front(alloc, name)?;
    let found = disk.names(folder, front.as_str())?;
    let mut removed: usize = 0;
    for own in found.as_slice() {
        if remove_named(alloc, disk, path, own.as_str(), front.as_str()).unwrap_or(false) {
            removed = removed.saturating_add(1);
        }
    }
    Ok(removed)
}

/// Writes the bytes to a new file beside the file of a path with this mode, and renames it. Tries as
/// many names as `replace_beside` says.
fn place_beside<D: Disk>(
    alloc: Global,
    disk: &mut D,
    path: &str,
    mode: Option<Mode>,
    bytes: &[u8],
) -> io::Result<()> {
    for tried in 0..MOST_TRIES {
        let beside = path_beside(alloc, path, disk.process(), disk.draw(tried))?;
        if replace(disk, path, beside.as_str(), mode, bytes)? {
            return Ok(());
        }
    }
    Err(io::Error::from(ErrorKind::AlreadyExists))
}

/// Replaces the file of a path by these bytes, or makes it: writes them to a new file at
/// `.NAME.zerotrie-PROCESS-NUMBER` in the same folder with this mode and renames it. NAME is the
/// name of the file, and NUMBER is drawn anew as long as such a file is there already, a hundred
/// times at most: then it fails with `AlreadyExists`.
///
/// At each moment the file holds its old bytes or all of the new ones, and all other files that
/// were there what they held. After an error the new file is removed, and then all files are as
/// they were. If the removal fails, too, the new file alone is left. If the process is ended in
/// between, it may be left as well.
///
/// First it removes the files that were left so, and returns how many: those of such a name that
/// nobody holds and that are empty, begin with the magic of sealed files or are a beginning of it.
/// One that can't be removed stays, and is no error.
pub fn replace_beside<D: Disk>(
    alloc: Global,
    disk: &mut D,
    path: &str,
    mode: Option<Mode>,
    bytes: &[u8],
) -> io::Result<usize> {
    let removed = remove_all_left(alloc, disk, path).unwrap_or(0);
    place_beside(alloc, disk, path, mode, bytes)?;
    Ok(removed)
}
