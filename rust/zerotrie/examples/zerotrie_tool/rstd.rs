//! What the program takes from Rattle's std beside the library's shim: the runtime and its streams. Written by hand.
pub use ::zerotrie::rstd::*;

/// What Rattle's runtime hands to `main`.
pub struct HostRuntime;

impl HostRuntime {
    pub fn stdin(&self) -> std::io::Stdin {
        std::io::stdin()
    }

    pub fn stdout(&self) -> std::io::Stdout {
        std::io::stdout()
    }

    pub fn stderr(&self) -> std::io::Stderr {
        std::io::stderr()
    }
}

pub trait AllocGlobal {
    fn alloc(&self) -> alloc::Global {
        alloc::Global
    }
}

impl AllocGlobal for HostRuntime {}

/// Text that grows, with an error of memory.
pub trait TryString {
    fn try_push_str(&mut self, text: &str) -> Result<(), alloc::AllocError>;
    fn try_push(&mut self, letter: char) -> Result<(), alloc::AllocError>;
    fn write_fmt(&mut self, text: std::fmt::Arguments<'_>) -> Result<(), alloc::AllocError>;
}

impl TryString for String {
    fn try_push_str(&mut self, text: &str) -> Result<(), alloc::AllocError> {
        self.try_reserve(text.len())?;
        self.push_str(text);
        Ok(())
    }

    fn try_push(&mut self, letter: char) -> Result<(), alloc::AllocError> {
        self.try_push_str(letter.encode_utf8(&mut [0; 4]))
    }

    fn write_fmt(&mut self, text: std::fmt::Arguments<'_>) -> Result<(), alloc::AllocError> {
        std::fmt::Write::write_fmt(self, text).map_err(|_| alloc::AllocError)
    }
}

/// What prints to a stream, and returns an error if that can't be written: Rust's own macros end the program then.
macro_rules! prints {
    ($sign:tt $($name:ident: $own:ident, $stream:ident, $end:literal;)*) => { $(
        #[allow(unused_macros)]
        macro_rules! $name {
            ($sign($text:tt)*) => {{
                let mut stream = std::io::$stream();
                std::io::Write::write_all(&mut stream, format!("{}{}", format_args!($sign($text)*), $end).as_bytes())
                    .and_then(|()| std::io::Write::flush(&mut stream))
            }};
        }
        pub(crate) use $name as $own;
    )* };
}
prints! { $
    print_in: print, stdout, "";
    println_in: println, stdout, "\n";
    eprint_in: eprint, stderr, "";
    eprintln_in: eprintln, stderr, "\n";
}

pub mod prelude {
    pub use super::{AllocGlobal, HostRuntime, TryString};
    pub use ::zerotrie::rstd::prelude::*;
}

pub mod process {
    pub use std::process::ExitCode;
}

/// Streams, by traits that have no more than the program calls.
pub mod io {
    pub use std::io::{Error, ErrorKind, Result};

    pub trait Read {
        fn read(&mut self, buffer: &mut [u8]) -> Result<usize>;
    }

    pub trait Write {
        fn write(&mut self, bytes: &[u8]) -> Result<usize>;
        fn flush(&mut self) -> Result<()>;

        fn write_all(&mut self, mut bytes: &[u8]) -> Result<()> {
            while !bytes.is_empty() {
                match self.write(bytes)? {
                    0 => return Err(Error::from(ErrorKind::WriteZero)),
                    count => bytes = &bytes[count..],
                }
            }
            Ok(())
        }

        fn write_fmt(&mut self, text: std::fmt::Arguments<'_>) -> Result<()> {
            self.write_all(text.to_string().as_bytes())
        }
    }

    impl Read for std::io::Stdin {
        fn read(&mut self, buffer: &mut [u8]) -> Result<usize> {
            std::io::Read::read(self, buffer)
        }
    }

    impl Read for &[u8] {
        fn read(&mut self, buffer: &mut [u8]) -> Result<usize> {
            std::io::Read::read(self, buffer)
        }
    }

    impl Write for std::io::Stdout {
        fn write(&mut self, bytes: &[u8]) -> Result<usize> {
            std::io::Write::write(self, bytes)
        }

        fn flush(&mut self) -> Result<()> {
            std::io::Write::flush(self)
        }
    }

    impl Write for std::io::Stderr {
        fn write(&mut self, bytes: &[u8]) -> Result<usize> {
            std::io::Write::write(self, bytes)
        }

        fn flush(&mut self) -> Result<()> {
            std::io::Write::flush(self)
        }
    }
}
