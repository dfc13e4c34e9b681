// Made from crates/zerotrie_files/src/found.rt by rust/make: edit that.
//! What a path leads to.

/// Who may read, write and run a file: the bits of its mode that stay if it is replaced. There is
/// no set-id bit.
#[derive(Clone, Copy, Debug)]
pub struct Mode {
    bits: u32,
}

impl Mode {
    /// Returns what stays of the mode of a file.
    pub fn kept(mode: u32) -> Self {
        Mode {
            bits: mode % 0o1000,
        }
    }

    /// Returns the bits.
    pub fn bits(self) -> u32 {
        self.bits
    }
}

/// What a path leads to.
#[derive(Clone, Copy, Debug)]
pub enum Found {
    /// Nothing, and it is no link either.
    Nothing,
    /// A file.
    File(Mode),
    Folder,
    /// A device or a pipe.
    Stream,
}
