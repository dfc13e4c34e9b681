// Made from crates/zerotrie_lines/src/columns.rt by rust/make: edit that.
//! The columns that have the pairs.

use crate::rstd::prelude::*;
use crate::zerotrie_lines::fault::{BadLine, ReadError, at_line};
use crate::zerotrie_lines::reading::Header;
use crate::rstd::csv::ByteRecord;
use crate::rstd::alloc::Global;

/// The columns of the key and of the value, and how many there are.
#[derive(Clone, Copy, Debug)]
pub(in crate::zerotrie_lines) struct Columns {
    pub key: usize,
    pub value: usize,
    pub count: usize,
}

/// A key and a value.
pub(in crate::zerotrie_lines) const TWO: Columns = Columns {
    key: 0,
    value: 1,
    count: 2,
};

/// Returns the first column from a place on with this name.
fn next_column(names: &ByteRecord, from: usize, name: &[u8]) -> Option<usize> {
    for index in from..names.len() {
        if let Some(field) = names.get(index) {
            if field == name {
                return Some(index);
            }
        }
    }
    None
}

/// Returns the one column with this name.
fn column_named(alloc: Global, names: &ByteRecord, name: &str) -> Result<usize, ReadError> {
    let Some(column) = next_column(names, 0, name.as_bytes()) else {
        let name = Vec::from_slice(alloc, name.as_bytes())?;
        return Err(at_line(1, BadLine::NoColumn(name)));
    };
    match next_column(names, column + 1, name.as_bytes()) {
        None => Ok(column),
        Some(_) => {
            let name = Vec::from_slice(alloc, name.as_bytes())?;
            Err(at_line(1, BadLine::SameColumns(name)))
        }
    }
}

impl Header<'_> {
    /// Returns the columns that have the pairs, by the fields of the header.
    pub(in crate::zerotrie_lines) fn columns(self, alloc: Global, names: &ByteRecord) -> Result<Columns, ReadError> {
        match self {
            Header::Absent | Header::Present => Ok(TWO),
            Header::Named(of) => Ok(Columns {
                key: column_named(alloc, names, of.key)?,
                value: column_named(alloc, names, of.value)?,
                count: names.len(),
            }),
        }
    }
}
