// Made from crates/zerotrie_lines/src/records.rt by rust/make: edit that.
//! Records of fields, and the pairs that they are.

use crate::rstd::prelude::*;
use crate::zerotrie_lines::columns::{Columns, TWO};
use crate::zerotrie_lines::escapes::without_mark;
use crate::zerotrie_lines::fault::{BadLine, ReadError, at_line};
use crate::zerotrie_lines::lines::{add_pair, take_ended};
use crate::zerotrie_lines::reading::{Header, LineEnd, TextForm};
use crate::zerotrie_lines::table::Table;
use crate::rstd::csv::{ByteRecord, ReaderBuilder, Terminator};
use crate::rstd::memchr::memchr;
use crate::rstd::alloc::{AllocError, Global};

/// Returns the field at a place, or nothing if it is not there.
fn field(row: &ByteRecord, index: usize) -> &[u8] {
    row.get(index).unwrap_or(b"")
}

/// Adds the pair that a record is, or returns why it is none. `key` is a buffer for a decoded key.
fn read_record(
    alloc: Global,
    raw: bool,
    columns: Columns,
    row: &ByteRecord,
    key: &mut Vec<u8>,
    table: &mut Table,
) -> Result<Option<BadLine>, AllocError> {
    if row.len() != columns.count {
        return Ok(Some(BadLine::Fields(row.len(), columns.count)));
    }
    let text = field(row, columns.key);
    add_pair(alloc, raw, text, field(row, columns.value), key, table)
}

/// The pairs of the records so far.
struct Records<'a> {
    /// Whether keys are as they are, and have no escapes.
    raw: bool,
    header: Header<'a>,
    columns: Columns,
    /// A buffer for a decoded key.
    key: Vec<u8>,
    table: Table,
}

impl<'a> Records<'a> {
    /// Returns those of no records.
    fn new(alloc: Global, raw: bool, header: Header<'a>) -> Self {
        Records {
            raw,
            header,
            columns: TWO,
            key: Vec::new(alloc),
            table: Table::new(alloc),
        }
    }

    /// Adds a record, before which there are so many: the header, which has the columns, or a pair.
    fn add(&mut self, alloc: Global, index: usize, row: &ByteRecord) -> Result<(), ReadError> {
        if index < self.header.rows() {
            self.columns = self.header.columns(alloc, row)?;
            return Ok(());
        }
        match read_record(
            alloc,
            self.raw,
            self.columns,
            row,
            &mut self.key,
            &mut self.table,
        )? {
            Some(bad) => Err(at_line(index + 1, bad)),
            None => Ok(()),
        }
    }
}

/// Returns what ends a record.
fn terminator_of(end: LineEnd) -> Terminator {
    match end {
        LineEnd::CrLf => Terminator::CRLF,
        LineEnd::Lf => Terminator::Any(b'\n'),
    }
}

/// Returns the pairs that the records of an input are, behind the header.
pub(in crate::zerotrie_lines) fn read_records(
    alloc: Global,
    form: TextForm<'_>,
    input: &[u8],
) -> Result<Table, ReadError> {
    let mut reader = ReaderBuilder::new()
        .terminator(terminator_of(form.end))
        .has_headers(false)
        .flexible(true)
        .from_reader(alloc, input);
    let mut row = ByteRecord::new(alloc);
    let mut records = Records::new(alloc, true, form.header);
    for index in 0..usize::MAX {
        let Ok(found) = reader.read_byte_record(&mut row) else {
            return Err(ReadError::OutOfMemory);
        };
        if !found {
            return Ok(records.table);
        }
        records.add(alloc, index, &row)?;
    }
    Err(ReadError::OutOfMemory)
}

/// Takes the first field off a line, with the tab after it. `None` if no tab is left.
fn take_field<'a>(rest: &mut &'a [u8]) -> Option<&'a [u8]> {
    let all = *rest;
    let place = memchr(b'\t', all)?;
    *rest = &all[place + 1..];
    Some(&all[..place])
}

/// Fills a record with the fields of a line, which tabs are between. An empty line has none.
fn split_at_tabs(line: &[u8], row: &mut ByteRecord) -> Result<(), AllocError> {
    row.clear();
    if line.is_empty() {
        return Ok(());
    }
    let mut rest = line;
    while let Some(field) = take_field(&mut rest) {
        row.push_field(field)?;
    }
    row.push_field(rest)
}

/// Returns the pairs that lines are whose fields are between tabs, behind the header.
pub(in crate::zerotrie_lines) fn read_columns(
    alloc: Global,
    raw: bool,
    form: TextForm<'_>,
    input: &[u8],
) -> Result<Table, ReadError> {
    let mut rest = without_mark(input);
    let mut row = ByteRecord::new(alloc);
    let mut records = Records::new(alloc, raw, form.header);
    for index in 0..usize::MAX {
        if rest.is_empty() {
            return Ok(records.table);
        }
        let line = take_ended(form.end, &mut rest);
        split_at_tabs(line, &mut row)?;
        records.add(alloc, index, &row)?;
    }
    Err(ReadError::OutOfMemory)
}
