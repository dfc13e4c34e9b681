// Made from crates/zerotrie_making/src/input.rt by rust/make: edit that.
//! The pairs that an input is.

use crate::rstd::prelude::*;
use crate::zerotrie_making::error::MakeError;
use crate::zerotrie_making::json_lines::read_json_lines;
use crate::zerotrie_making::json_pairs::read_json;
use crate::zerotrie_making::plan::{ReadPlan, Source};
use crate::rstd::alloc::{AllocError, Global};
use crate::zerotrie_lines::{Table, read_items, read_pairs};

/// Reads the pairs of an input, in their order, whose keys borrow it. `None` if `read_input` has to
/// copy them.
pub(in crate::zerotrie_making) fn items_in<'a>(
    alloc: Global,
    read: ReadPlan<'_>,
    input: &'a [u8],
) -> Result<Option<Vec<(&'a [u8], usize)>>, AllocError> {
    match read.source {
        Source::Text(form) if !read.lower_case => read_items(alloc, form, input),
        _ => Ok(None),
    }
}

/// Returns the pairs, with the ASCII letters of their keys in lower case if that is asked for.
fn lowered(lower_case: bool, pairs: Table) -> Table {
    let mut table = pairs;
    if lower_case {
        table.lower_case();
    }
    table
}

/// Reads the pairs of an input, in their order. If the plan says so, the ASCII letters of their keys
/// become lower case.
pub(in crate::zerotrie_making) fn read_input(
    alloc: Global,
    read: ReadPlan<'_>,
    input: &[u8],
) -> Result<Table, MakeError> {
    match read.source {
        Source::Text(form) => Ok(read_pairs(alloc, form, read.lower_case, input)?),
        Source::Json => Ok(lowered(read.lower_case, read_json(alloc, input)?)),
        Source::JsonLines(names) => {
            Ok(lowered(read.lower_case, read_json_lines(alloc, names, input)?))
        }
    }
}
