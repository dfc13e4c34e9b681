// Made from crates/zerotrie_queries/src/listing/forms.rt by rust/make: edit that.
//! The pairs of a listing, written in each form.

use crate::rstd::prelude::*;
use crate::zerotrie_queries::listing::distances::Distances;
use crate::zerotrie_queries::listing::json_object::write_object;
use crate::zerotrie_queries::print::{Form, Style, add_number_line, add_pair};
use crate::rstd::alloc::{AllocError, Global};
use crate::rstd::io;
use crate::rstd::io::Write;
use crate::zerotrie_files::Noted;
use crate::zerotrie_search::TrieListing;

/// The least number of bytes that one write has, but for the last.
const BLOCK: usize = 1 << 16;

/// What the line of a pair is.
pub(in crate::zerotrie_queries) trait PairLine {
    // The line.

    /// Adds the line of a pair to a text.
    fn add_line(&self, text: &mut Vec<u8>, key: &[u8], value: usize) -> Result<(), AllocError>;
}

impl PairLine for Style {
    fn add_line(&self, text: &mut Vec<u8>, key: &[u8], value: usize) -> Result<(), AllocError> {
        add_pair(text, *self, key, value)
    }
}

/// Fills an empty buffer with the lines of the next pairs, up to a block, and returns whether more may
/// follow.
fn add_block<P: TrieListing, L: PairLine>(
    text: &mut Vec<u8>,
    pairs: &mut P,
    line: &L,
) -> Result<bool, AllocError> {
    while text.len() < BLOCK {
        if !pairs.advance()? {
            return Ok(false);
        }
        line.add_line(text, pairs.key(), pairs.value())?;
    }
    Ok(true)
}

/// Writes the lines of pairs, many at once. If it fails, a beginning of them was written.
fn write_lines<P: TrieListing, L: PairLine, W: Write>(
    alloc: Global,
    mut pairs: P,
    line: &L,
    output: &mut Noted<W>,
) -> io::Result<()> {
    let mut text = Vec::new(alloc);
    loop {
        let more = add_block(&mut text, &mut pairs, line)?;
        output.write_bytes(text.as_slice())?;
        if !more {
            return Ok(());
        }
        text.clear();
    }
}

/// Returns how many pairs are to come.
fn count_pairs<P: TrieListing>(mut pairs: P) -> Result<usize, AllocError> {
    let mut count: usize = 0;
    while pairs.advance()? {
        count = count.saturating_add(1);
    }
    Ok(count)
}

/// Writes a line that says how many pairs are to come.
fn write_count<P: TrieListing, W: Write>(
    alloc: Global,
    pairs: P,
    output: &mut Noted<W>,
) -> io::Result<()> {
    let mut line = Vec::new(alloc);
    add_number_line(&mut line, count_pairs(pairs)?)?;
    output.write_bytes(line.as_slice())
}

/// Writes pairs in a form. As one JSON object each key must be UTF-8. If it fails, a beginning of the
/// text was written.
pub(in crate::zerotrie_queries) fn write_pairs<P: TrieListing, W: Write>(
    alloc: Global,
    form: Form,
    edits: &Distances<'_>,
    pairs: P,
    output: &mut Noted<W>,
) -> io::Result<()> {
    match form {
        Form::Lines(style) => write_lines(alloc, pairs, &style, output),
        Form::Distances => write_lines(alloc, pairs, edits, output),
        Form::Count => write_count(alloc, pairs, output),
        Form::Json => write_object(alloc, pairs, output),
    }
}
