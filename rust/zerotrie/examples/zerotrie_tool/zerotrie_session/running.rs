// Made from crates/zerotrie_session/src/running.rt by rust/make: edit that.
//! One run of the program, over a reader and a writer.

use crate::rstd::prelude::*;
use crate::zerotrie_session::answer::answer_all;
use crate::zerotrie_session::command::BadLine;
use crate::zerotrie_session::noted::Noted;
use crate::rstd::alloc::{AllocError, Global};
use crate::rstd::io::{Read, Write};

/// Why a run failed.
#[derive(Clone, PartialEq, Eq, Debug)]
pub enum RunError {
    /// The reader failed.
    Read,
    /// The writer failed.
    Write,
    /// An allocation failed, outside of a build.
    OutOfMemory,
}

impl core::fmt::Display for RunError {
    #[inline]
    fn fmt(&self, f: &mut core::fmt::Formatter<'_>) -> core::fmt::Result {
        match self {
            Self::Read => write!(f, "Read"),
            Self::Write => write!(f, "Write"),
            Self::OutOfMemory => write!(f, "OutOfMemory"),
        }
    }
}

impl core::error::Error for RunError {}

impl RunError {
    /// Returns the message for standard error.
    pub fn message(&self) -> &'static str {
        match self {
            RunError::Read => "read failed",
            RunError::Write => "write failed",
            RunError::OutOfMemory => "out of memory",
        }
    }
}

impl From<AllocError> for RunError {
    fn from(_: AllocError) -> Self {
        RunError::OutOfMemory
    }
}

/// Reads all of the input.
fn read_all<R: Read>(alloc: Global, reader: &mut Noted<R>) -> Result<Vec<u8>, RunError> {
    let mut input: Vec<u8> = Vec::new(alloc);
    let mut chunk = [0u8; 1024];
    loop {
        let Ok(count) = reader.read(&mut chunk) else {
            return Err(RunError::Read);
        };
        if count == 0 {
            return Ok(input);
        }
        input.extend_from_slice(&chunk[..count])?;
    }
}

/// How a run ended that wrote its output.
#[derive(Clone, Copy, PartialEq, Eq, Debug)]
pub struct Ended {
    /// The status to end with.
    pub status: u8,
    /// The number of the bad line that ended the run, from 1 on, and why it is bad.
    pub bad: Option<(usize, BadLine)>,
}

/// Reads all of the input, then writes the output. Returns the status to end with.
///
/// ```text
/// kind simple     chooses a kind of trie: simple, ignore, hash, ext or auto
/// + 22 ad         adds a pair
/// build           builds the trie of the pairs, and prints ok 4 61649006: its length and its bytes
/// ? ad            prints 22, the number of the key, or none
/// list            prints 22 6164, the value of each pair and its key in hexadecimal
/// walk s61 p0 t   prints s61 p64/1 t22: a step by a byte, a probe of edge 0 of 1, and the value taken
/// ```
///
/// - An empty line is skipped and counted.
/// - A second `kind` begins anew: without pairs, and with the empty trie.
/// - A build takes all pairs since `kind`. If it fails, it prints why, and leaves the empty trie.
/// - A listing has the order of the trie, or of the bytes of the keys if the kind is `auto`.
/// - A walk is one or more calls of a cursor with one space between them. `auto` has no walks.
/// - Any other line is bad, and so is every line but an empty one before the first `kind`. `bad
///   line N` ends the run; `run_explained` returns why.
/// - The status is 2 after a bad line, else 1 if a build failed, else 0.
///
/// Before any error but `Write`, nothing was written. If the reader neither ends nor fails, the error
/// is `OutOfMemory`.
pub fn run<R: Read, W: Write>(
    alloc: Global,
    reader: &mut Noted<R>,
    writer: &mut Noted<W>,
) -> Result<u8, RunError> {
    Ok(run_explained(alloc, reader, writer)?.status)
}

/// Does what `run` does, and returns also why a bad line ended the run.
pub fn run_explained<R: Read, W: Write>(
    alloc: Global,
    reader: &mut Noted<R>,
    writer: &mut Noted<W>,
) -> Result<Ended, RunError> {
    let input = read_all(alloc, reader)?;
    let answered = answer_all(alloc, input.as_slice())?;
    if writer.write_all(answered.output.as_bytes()).is_err() || writer.flush().is_err() {
        return Err(RunError::Write);
    }
    Ok(Ended {
        status: answered.status,
        bad: answered.bad,
    })
}
