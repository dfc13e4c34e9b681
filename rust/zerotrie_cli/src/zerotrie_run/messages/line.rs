// Made from crates/zerotrie_run/src/messages/line.rt by rust/make: edit that.
//! Lines of messages, and the places that they name.

use crate::rstd::prelude::*;
use crate::zerotrie_run::command::{Command, Place};
use crate::rstd::alloc::{AllocError, Global};
use crate::rstd::io;
use crate::rstd::io::{ErrorKind, Write};
use crate::zerotrie_files::Noted;
use crate::zerotrie_lines::write_escaped;

/// The name of standard input.
pub const STANDARD_INPUT: &str = "standard input";

/// The name of standard output.
pub const STANDARD_OUTPUT: &str = "standard output";

/// What a run says that is out of memory.
pub const NO_MEMORY: &[u8] = b"zerotrie: out of memory\n";

/// Returns how messages name a place that bytes come from.
pub fn source_name(place: Place<'_>) -> &str {
    place.name(STANDARD_INPUT)
}

/// Returns how messages name a place that bytes go to.
pub fn target_name(place: Place<'_>) -> &str {
    place.name(STANDARD_OUTPUT)
}

/// Writes a text. If that fails, the messages note it, and the status alone says how the run ended.
pub fn tell<M: Write>(messages: &mut Noted<M>, text: &[u8]) {
    if !text.is_empty() {
        let _ = messages.write_bytes(text);
    }
}

/// Returns the line that says that a command would read standard input twice.
pub fn twice_line(command: Command<'_>) -> &'static [u8] {
    match command {
        Command::Ask(_, _) => b"zerotrie: standard input can't be both the file and the keys\n",
        Command::Diff(_) => b"zerotrie: standard input can't be both files\n",
        Command::Build(_) | Command::Combine(_) => {
            b"zerotrie: standard input can't be two of the files\n"
        }
    }
}

/// Returns the line on a place that has these words. The name is escaped as keys are, so that it can't
/// steer a terminal.
pub fn line_on(alloc: Global, place: &str, words: &[u8]) -> Result<Vec<u8>, AllocError> {
    let mut text = Vec::from_slice(alloc, b"zerotrie: ")?;
    write_escaped(&mut text, place.as_bytes())?;
    text.extend_from_slice(b": ")?;
    text.extend_from_slice(words)?;
    text.push(b'\n')?;
    Ok(text)
}

/// Returns a line on a fault at a place.
pub fn fault_on(alloc: Global, place: &str, error: &io::Error) -> Result<Vec<u8>, AllocError> {
    let words = format!("{error}");
    line_on(alloc, place, words.as_bytes())
}

/// Returns a line that says that bytes can't be written to a place, and why.
pub fn unwritten(alloc: Global, place: &str, error: &io::Error) -> Result<Vec<u8>, AllocError> {
    match error.kind() {
        ErrorKind::NotFound => line_on(
            alloc,
            place,
            b"its folder, or the file that a link leads to, is not there",
        ),
        ErrorKind::PermissionDenied => {
            let words = format!("{error}; it has to be writable, and so has its folder, where a new file is made that takes its place"
            );
            line_on(alloc, place, words.as_bytes())
        }
        _ => fault_on(alloc, place, error),
    }
}
