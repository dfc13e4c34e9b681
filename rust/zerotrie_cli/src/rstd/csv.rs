//! Records of comma-separated fields, by the crate `csv`.
use super::alloc::{AllocError, Allocator};
pub use ::csv::Terminator;
use std::ops;

pub struct ReaderBuilder(::csv::ReaderBuilder);

impl ReaderBuilder {
    pub fn new() -> Self {
        ReaderBuilder(::csv::ReaderBuilder::new())
    }

    pub fn terminator(mut self, end: Terminator) -> Self {
        self.0.terminator(end);
        self
    }

    pub fn has_headers(mut self, has: bool) -> Self {
        self.0.has_headers(has);
        self
    }

    pub fn flexible(mut self, is_flexible: bool) -> Self {
        self.0.flexible(is_flexible);
        self
    }

    #[allow(clippy::wrong_self_convention)] // as `csv` has it
    pub fn from_reader<A: Allocator>(self, _: A, input: &[u8]) -> ::csv::Reader<&[u8]> {
        self.0.from_reader(input)
    }
}

pub struct ByteRecord(::csv::ByteRecord);

impl ByteRecord {
    pub fn new<A: Allocator>(_: A) -> Self {
        ByteRecord(::csv::ByteRecord::new())
    }

    pub fn push_field(&mut self, field: &[u8]) -> Result<(), AllocError> {
        self.0.push_field(field);
        Ok(())
    }
}

impl ops::Deref for ByteRecord {
    type Target = ::csv::ByteRecord;
    fn deref(&self) -> &::csv::ByteRecord {
        &self.0
    }
}

impl ops::DerefMut for ByteRecord {
    fn deref_mut(&mut self) -> &mut ::csv::ByteRecord {
        &mut self.0
    }
}
