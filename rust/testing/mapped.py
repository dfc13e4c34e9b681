"""Makes a program of five lines over the plain package, by `cargo add --path`, which opens a file in a memory map, and runs it.
Arguments: the folder rust, and a folder to work in.
"""
import pathlib
import subprocess
import sys

RUST, ROOM = (pathlib.Path(it).resolve() for it in sys.argv[1:3])
# the five lines
BODY = """
    std::fs::write("words.zt", ZeroTrie::try_from_iter([("foo", 1), ("bar", 2), ("bazzoo", 3)])?.seal())?;
    let trie = ZeroTrie::open(map::Map::of("words.zt")?)?;
    let near = Levenshtein::new(b"bazoo", 1).ok_or("too long")?;
    println!("{:?} {:?}", trie.get("bar"), trie.search(near).collect::<Vec<_>>());
    Ok(())
"""
MAIN = f"""mod map;
use zerotrie::{{search::Levenshtein, ZeroTrie}};
fn main() -> Result<(), Box<dyn std::error::Error>> {{{BODY}}}
"""
# What memmap2 has, which is not here.
MAP = """use std::{ffi::c_void, fs::File, io, os::fd::AsRawFd, ptr, slice};
unsafe extern "C" {
    fn mmap(at: *mut c_void, len: usize, protection: i32, flags: i32, file: i32, offset: i64) -> *mut c_void;
    fn munmap(at: *mut c_void, len: usize) -> i32;
}
pub struct Map(*mut c_void, usize);
impl Map {
    pub fn of(path: &str) -> io::Result<Self> {
        let file = File::open(path)?;
        let len = file.metadata()?.len() as usize;
        let at = unsafe { mmap(ptr::null_mut(), len, 1, 2, file.as_raw_fd(), 0) };
        if at as isize == -1 { Err(io::Error::last_os_error()) } else { Ok(Map(at, len)) }
    }
}
impl AsRef<[u8]> for Map {
    fn as_ref(&self) -> &[u8] { unsafe { slice::from_raw_parts(self.0.cast(), self.1) } }
}
impl Drop for Map {
    fn drop(&mut self) { unsafe { munmap(self.0, self.1) }; }
}
"""
WANTED = "Some(2) [([98, 97, 122, 122, 111, 111], 3)]\n"


def run(*command):
    return subprocess.run(command, cwd=PROJECT, check=True, capture_output=True, text=True).stdout


PROJECT = ROOM / "mapped"
subprocess.run(["cargo", "new", "--quiet", "--vcs", "none", PROJECT], check=True)
run("cargo", "add", "--quiet", "--path", str(RUST / "zerotrie"))
(PROJECT / "src/main.rs").write_text(MAIN)
(PROJECT / "src/map.rs").write_text(MAP)
printed = run("cargo", "run", "--quiet")
assert printed == WANTED, printed
print(f"a program of {len(BODY.strip().splitlines())} lines built, searched and opened a mapped file")
