// Made from crates/zerotrie_session/src/reply.rt by rust/make: edit that.
//! The lines of the output.

use crate::rstd::prelude::*;
use crate::rstd::alloc::{AllocError, Global};
use crate::rstd::collections::BTreeMap;
use crate::zerotrie_all::{CursorAnswer, Trie, ZeroTrieBuildError};

/// Writes bytes in hexadecimal, or a dash if there are none.
fn write_hex(output: &mut String, bytes: &[u8]) -> Result<(), AllocError> {
    if bytes.is_empty() {
        return output.try_push_str("-");
    }
    for byte in bytes {
        write!(output, "{byte:02x}")?;
    }
    Ok(())
}

/// Returns the name of the variant.
fn name_of(error: &ZeroTrieBuildError) -> &'static str {
    match error {
        ZeroTrieBuildError::NonAsciiError => "NonAsciiError",
        ZeroTrieBuildError::CapacityExceeded => "CapacityExceeded",
        ZeroTrieBuildError::CouldNotSolvePerfectHash => "CouldNotSolvePerfectHash",
        ZeroTrieBuildError::MixedCase => "MixedCase",
        ZeroTrieBuildError::IllegalDelimiter => "IllegalDelimiter",
        ZeroTrieBuildError::DuplicateKey => "DuplicateKey",
        ZeroTrieBuildError::Unsorted => "Unsorted",
        ZeroTrieBuildError::BufferTooSmall => "BufferTooSmall",
        ZeroTrieBuildError::BufferTooLarge(_) => "BufferTooLarge",
        ZeroTrieBuildError::StackExceeded => "StackExceeded",
        ZeroTrieBuildError::OutOfMemory => "OutOfMemory",
    }
}

/// Writes the line of a build, with the bytes of the trie.
pub fn write_ok(output: &mut String, text: &[u8]) -> Result<(), AllocError> {
    let length = text.len();
    write!(output, "ok {length} ")?;
    write_hex(output, text)?;
    writeln!(output)
}

/// Writes the line of a build that returned an error.
pub fn write_refused(output: &mut String, error: &ZeroTrieBuildError) -> Result<(), AllocError> {
    let name = name_of(error);
    writeln!(output, "refused {name}")
}

/// Writes the number of a key.
pub fn write_number(output: &mut String, number: Option<usize>) -> Result<(), AllocError> {
    match number {
        Some(value) => writeln!(output, "{value}"),
        None => writeln!(output, "none"),
    }
}

/// Writes a pair.
pub fn write_pair(output: &mut String, key: &[u8], value: usize) -> Result<(), AllocError> {
    write!(output, "{value} ")?;
    write_hex(output, key)?;
    writeln!(output)
}

/// Writes the result of a cursor's call.
fn write_answer(output: &mut String, answer: &CursorAnswer) -> Result<(), AllocError> {
    match answer {
        CursorAnswer::Stepped(None) => output.try_push_str("s-"),
        CursorAnswer::Stepped(Some(byte)) => {
            output.try_push_str("s")?;
            write_hex(output, &[*byte])
        }
        CursorAnswer::Taken(None) => output.try_push_str("t-"),
        CursorAnswer::Taken(Some(value)) => write!(output, "t{value}"),
        CursorAnswer::Probed(None) => output.try_push_str("p-"),
        CursorAnswer::Probed(Some((byte, edges))) => {
            output.try_push_str("p")?;
            write_hex(output, &[*byte])?;
            write!(output, "/{edges}")
        }
    }
}

/// Writes the results of a walk.
pub fn write_walk(output: &mut String, answers: &[CursorAnswer]) -> Result<(), AllocError> {
    if let Some((first, rest)) = answers.split_first() {
        write_answer(output, first)?;
        for answer in rest {
            output.try_push_str(" ")?;
            write_answer(output, answer)?;
        }
    }
    writeln!(output)
}

/// Writes that the line with this number is no command.
pub fn write_bad(output: &mut String, line_number: usize) -> Result<(), AllocError> {
    writeln!(output, "bad line {line_number}")
}

/// Writes the pairs of a trie, in the order of its nodes.
pub fn write_pairs<T: Trie>(alloc: Global, trie: &T, output: &mut String) -> Result<(), AllocError> {
    let mut pairs = trie.stream(alloc);
    while pairs.advance()? {
        write_pair(output, pairs.key(), pairs.value())?;
    }
    Ok(())
}

/// Writes the pairs of a map, in the order of its keys.
pub fn write_sorted(map: &BTreeMap<Vec<u8>, usize>, output: &mut String) -> Result<(), AllocError> {
    for (key, value) in map {
        write_pair(output, key.as_slice(), *value)?;
    }
    Ok(())
}
