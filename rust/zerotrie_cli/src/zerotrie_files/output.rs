// Made from crates/zerotrie_files/src/output.rt by rust/make: edit that.
//! The file that bytes go to.

use crate::zerotrie_files::disk::Disk;
use crate::zerotrie_files::found::Found;
use crate::zerotrie_files::replacing::replace_beside;
use crate::rstd::alloc::Global;
use crate::rstd::io;
use crate::rstd::io::ErrorKind;

/// Returns whether a path names an open file of a process, which is written to and not replaced.
fn is_open_file(path: &str) -> bool {
    path.starts_with("/dev/fd/") || path.starts_with("/dev/std") || path.starts_with("/proc/")
}

/// Writes the bytes to a device, a pipe or an open file. No file was left beside it.
fn append<D: Disk>(disk: &mut D, path: &str, bytes: &[u8]) -> io::Result<usize> {
    disk.append(path, bytes)?;
    Ok(0)
}

/// Writes the bytes to the file of a path, which it replaces or makes.
///
/// The file is replaced atomically: the bytes go to a new file in its folder, which is synced and
/// renamed, as `replace_beside` does. After a fault all files are as they were. The result is how
/// many files it removed that killed builds of the file left in the folder.
///
/// A symbolic link stays, and the file that it leads to is replaced. The file keeps who may read,
/// write and run it, and no set-id bit. A file that was not there may be read and written by whom
/// the umask allows, and run by nobody.
///
/// A device or a pipe is written in place, and so is a file that is open at `/dev/fd/N`, at its
/// end. After a fault these may have a beginning of the bytes.
///
/// A folder, a link that leads nowhere and a file that can't be written are errors.
pub fn write_output<D: Disk>(
    alloc: Global,
    disk: &mut D,
    path: &str,
    bytes: &[u8],
) -> io::Result<usize> {
    if is_open_file(path) {
        return append(disk, path, bytes);
    }
    match disk.find(path)? {
        Found::Nothing => replace_beside(alloc, disk, path, None, bytes),
        Found::File(mode) => {
            disk.test_writable(path)?;
            let real = disk.real_path(path)?;
            replace_beside(alloc, disk, real.as_str(), Some(mode), bytes)
        }
        Found::Folder => Err(io::Error::from(ErrorKind::IsADirectory)),
        Found::Stream => append(disk, path, bytes),
    }
}
