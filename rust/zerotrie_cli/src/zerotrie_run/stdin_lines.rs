// Made from crates/zerotrie_run/src/stdin_lines.rt by rust/make: edit that.
//! Lines of standard input, which are answered as they come.

use crate::rstd::prelude::*;
use crate::rstd::alloc::Global;
use crate::rstd::io;
use crate::rstd::io::{BufWriter, ErrorKind, Read, Write};
use crate::zerotrie_files::Noted;
use crate::zerotrie_lines::{LineEnd, read_lines, whole_lines, without_mark};
use crate::zerotrie_making::{OtherFile, is_settled, other_file};
use crate::zerotrie_queries::{Finder, Query, write_answers};

/// Why there is no answer, or not all of it.
#[derive(Debug)]
pub enum AnswerError {
    /// Standard input can't be read.
    Input(io::Error),
    /// Standard input is no lines, but this other file.
    NoLines(OtherFile),
    /// Output can't be written, or it is out of memory.
    Output(io::Error),
}

impl From<io::Error> for AnswerError {
    fn from(error: io::Error) -> Self {
        AnswerError::Output(error)
    }
}

/// Answers some lines, flushes the answers, and returns whether all was found.
fn answer_part<W: Write>(
    alloc: Global,
    finder: &Finder<'_>,
    query: Query,
    part: &[u8],
    output: &mut Noted<BufWriter<W>>,
) -> io::Result<bool> {
    let lines = read_lines(alloc, LineEnd::CrLf, part)?;
    let all = write_answers(alloc, finder, query, lines.as_slice(), output)?;
    output.hand_on()?;
    Ok(all)
}

/// Returns lines without the byte order mark that may be in front of the first lines of an input.
fn text_behind(first: bool, lines: &[u8]) -> &[u8] {
    if first { without_mark(lines) } else { lines }
}

/// Returns how many of the held bytes are answered now: the whole lines, or all if the input has
/// ended.
fn part_len(held: &[u8], before: usize, ended: bool) -> usize {
    if ended {
        held.len()
    } else {
        whole_lines(held, before)
    }
}

/// Drops the first of the held bytes.
fn drop_front(held: &mut Vec<u8>, len: usize) {
    held.drain(..len);
}

/// Reads an input until what was read shows which other file it is, or that it is none of them.
/// Returns whether the input has ended.
fn read_start<R: Read>(input: &mut Noted<R>, held: &mut Vec<u8>) -> io::Result<bool> {
    // each loop has to end: no input has as many parts
    for _ in 0..u64::MAX {
        let before = held.len();
        let ended = input.read_more(held)?;
        if ended || is_settled(held.as_slice(), before) {
            return Ok(ended);
        }
    }
    Err(io::Error::from(ErrorKind::OutOfMemory))
}

/// Answers the lines of an input, and returns whether all was found. It answers the lines of one
/// read before the next, so a line is answered as soon as it is there. If a read fails, the answers
/// to all whole lines before it were handed on. In memory are one read and the longest line, the
/// list of its lines and the lines of 4,096 answers. Nothing is answered of what begins with the byte
/// order mark of UTF-16 until it has a zero byte or ends, since it may be UTF-16.
pub fn answer_lines<R: Read, W: Write>(
    alloc: Global,
    finder: &Finder<'_>,
    query: Query,
    input: &mut Noted<R>,
    output: &mut Noted<BufWriter<W>>,
) -> Result<bool, AnswerError> {
    let mut held = Vec::new(alloc);
    let mut ended = match read_start(input, &mut held) {
        Ok(ended) => ended,
        Err(error) => return Err(AnswerError::Input(error)),
    };
    if let Some(other) = other_file(held.as_slice()) {
        return Err(AnswerError::NoLines(other));
    }
    let mut before = 0;
    let mut first = true;
    let mut all = true;
    // each loop has to end: no input has as many parts
    for _ in 0..u64::MAX {
        let len = part_len(held.as_slice(), before, ended);
        all &= answer_part(
            alloc,
            finder,
            query,
            text_behind(first, &held[..len]),
            output,
        )?;
        first &= len == 0;
        drop_front(&mut held, len);
        if ended {
            return Ok(all);
        }
        before = held.len();
        ended = match input.read_more(&mut held) {
            Ok(ended) => ended,
            Err(error) => return Err(AnswerError::Input(error)),
        };
    }
    Err(AnswerError::Input(io::Error::from(ErrorKind::OutOfMemory)))
}
