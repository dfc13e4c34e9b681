//! What the program takes from Rattle's std and its crates beside the library's shim. Written by hand.
#![allow(dead_code)] // what only has to be named
pub use ::zerotrie::rstd::*;

pub use ::{itoa, memchr};
pub use std::os;

pub mod clap;
pub mod csv;
pub mod fs;
pub mod io;
pub mod json;
#[allow(unused_imports)]
#[path = "../../../zerotrie/examples/zerotrie_tool/rstd.rs"]
mod tool;

pub use tool::{AllocGlobal, HostRuntime, TryString};
pub(crate) use tool::{eprint, eprintln, print};

pub mod prelude {
    pub use super::{AllocGlobal, HostRuntime, TryString};
    pub use ::zerotrie::rstd::prelude::*;
}

impl Clone for HostRuntime {
    fn clone(&self) -> Self {
        HostRuntime
    }
}

impl HostRuntime {
    pub fn process(&self) -> process::Process {
        process::Process
    }
}

/// The words of the command line.
pub mod env {
    use super::io;

    /// It is an error of the kind `InvalidData` if a word is not UTF-8.
    pub fn args<R>(_: &R) -> io::Result<impl Iterator<Item = String>> {
        let words: Result<Vec<_>, _> = std::env::args_os().map(|word| word.into_string()).collect();
        words.map(Vec::into_iter).map_err(|_| io::ErrorKind::InvalidData.into())
    }
}

pub mod process {
    pub use std::process::ExitCode;

    #[derive(Clone, Copy)]
    pub struct Process;

    pub fn id(_: Process) -> u32 {
        std::process::id()
    }
}

pub mod random {
    use super::io;
    use std::hash::{BuildHasher, RandomState};

    pub trait RandomSource {
        /// Fills the room with numbers that nobody can foretell: hashes by keys that the system draws.
        fn fill_bytes(&self, room: &mut [u8]) -> io::Result<()> {
            for part in room.chunks_mut(8) {
                let drawn = RandomState::new().hash_one(()).to_ne_bytes();
                part.copy_from_slice(&drawn[..part.len()]);
            }
            Ok(())
        }
    }

    impl RandomSource for super::HostRuntime {}
}

pub mod rt {
    pub trait Files {
        type File;
    }

    impl Files for super::HostRuntime {
        type File = super::fs::File;
    }
}
