// Made from crates/zerotrie_queries/src/reports.rt by rust/make: edit that.
//! Reports of a trie: its nodes by their sort, and its branches by their size.

use crate::rstd::prelude::*;

mod branches;
mod count;
mod lines;
mod object;

use crate::zerotrie_queries::reports::lines::{add_heading, add_report};
use crate::zerotrie_queries::reports::object::add_report_object;
pub use branches::Branches;
pub use count::Report;
use crate::rstd::alloc::{AllocError, Global};
use crate::rstd::io;
use crate::rstd::io::Write;
use crate::zerotrie_core::TrieRef;
use crate::zerotrie_files::Noted;

/// How a report is printed.
#[derive(Clone, Copy, PartialEq, Eq, Debug)]
pub enum ReportForm {
    /// Lines of a name, a tab and a number.
    Lines,
    /// One JSON object, and a line feed.
    Json,
}

fn add_in_form(
    text: &mut Vec<u8>,
    form: ReportForm,
    name: Option<&str>,
    report: &Report,
) -> Result<(), AllocError> {
    match form {
        ReportForm::Lines => {
            add_heading(text, name)?;
            add_report(text, report)
        }
        ReportForm::Json => add_report_object(text, name, report),
    }
}

/// Writes the report of a trie, with the name of its file if one is given: as a line in front, or as a member. If
/// it fails, a beginning of it was written.
pub fn write_trie_report<W: Write>(
    alloc: Global,
    trie: &TrieRef<'_>,
    form: ReportForm,
    name: Option<&str>,
    output: &mut Noted<W>,
) -> io::Result<()> {
    let report = Report::of(alloc, trie)?;
    let mut text = Vec::new(alloc);
    add_in_form(&mut text, form, name, &report)?;
    output.write_bytes(text.as_slice())
}
