//! What the proved tests take from Rattle's std beside the library's shim. Written by hand.
#[path = "../../examples/zerotrie_tool/rstd.rs"]
mod program;
pub use program::*;

/// A clone where an error is expected.
pub trait CloneIn: Clone {
    fn clone_in(&self) -> Result<Self, alloc::AllocError> {
        Ok(self.clone())
    }
}

impl<T: Clone> CloneIn for T {}

pub mod prelude {
    pub use super::CloneIn;
    pub use super::serde_json::ValueText;
    pub use super::{AllocGlobal, HostRuntime, program::prelude::*};
}

pub mod test {
    pub type Fail = Box<dyn std::error::Error>;
}

pub mod process {
    pub trait Abort {}

    impl Abort for super::HostRuntime {}
}

pub mod io {
    pub use super::program::io::*;

    impl Write for super::vec::Vec<u8> {
        fn write(&mut self, bytes: &[u8]) -> Result<usize> {
            self.extend_from_slice(bytes).map_err(|_| Error::from(ErrorKind::OutOfMemory))?;
            Ok(bytes.len())
        }

        fn flush(&mut self) -> Result<()> {
            Ok(())
        }
    }
}

/// A heap of limited size, which plain Rust lacks: the tests that measure one are left out.
pub mod linked_list_allocator {
    use super::alloc::{AllocError, Allocator, Global};

    pub struct LocalHeap;

    impl LocalHeap {
        pub fn new(_: Global, _: usize) -> Result<Self, AllocError> {
            Ok(LocalHeap)
        }

        pub fn used(&self) -> usize {
            0
        }
    }

    impl Allocator for LocalHeap {}
}

#[path = "json.rs"]
pub mod serde_json;
