// Made from crates/zerotrie_lines/src/table.rt by rust/make: edit that.
//! Pairs whose keys are one after another in one buffer.

use crate::rstd::prelude::*;
use crate::rstd::alloc::{AllocError, Global};

/// Pairs in the order in which they were added.
///
/// The bytes of all keys are one list, and a pair takes 16 bytes besides.
pub struct Table {
    bytes: Vec<u8>,
    marks: Vec<(usize, usize)>,
}

impl Table {
    /// Returns a table of no pairs.
    pub fn new(alloc: Global) -> Self {
        Table {
            bytes: Vec::new(alloc),
            marks: Vec::new(alloc),
        }
    }

    /// Adds a pair.
    pub fn push(&mut self, key: &[u8], value: usize) -> Result<(), AllocError> {
        let before = self.bytes.len();
        self.bytes.extend_from_slice(key)?;
        if self.marks.push((key.len(), value)).is_err() {
            self.bytes.truncate(before);
            return Err(AllocError);
        }
        Ok(())
    }

    /// Returns how many pairs there are.
    pub fn len(&self) -> usize {
        self.marks.len()
    }

    /// Brings the ASCII letters of all keys into lower case.
    pub fn lower_case(&mut self) {
        self.bytes.make_ascii_lowercase();
    }

    /// Returns the pairs as a slice's items, whose keys borrow the table.
    pub fn items(&self, alloc: Global) -> Result<Vec<(&[u8], usize)>, AllocError> {
        let mut items = Vec::with_capacity(alloc, self.marks.len())?;
        let mut rest = self.bytes.as_slice();
        for (len, value) in &self.marks {
            let (key, behind) = rest.split_at(*len);
            items.push((key, *value))?;
            rest = behind;
        }
        Ok(items)
    }
}
