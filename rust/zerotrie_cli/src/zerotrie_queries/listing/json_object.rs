// Made from crates/zerotrie_queries/src/listing/json_object.rt by rust/make: edit that.
//! The pairs of a trie as one JSON object, printed as they come.

use crate::rstd::prelude::*;
use crate::zerotrie_queries::json_text::{add_comma, add_member};
use crate::rstd::alloc::Global;
use crate::rstd::io;
use crate::rstd::io::Write;
use crate::zerotrie_files::Noted;
use crate::zerotrie_search::TrieListing;

/// Writes the pairs to come as members, with commas between.
fn write_members<P: TrieListing, W: Write>(
    alloc: Global,
    mut pairs: P,
    output: &mut Noted<W>,
) -> io::Result<()> {
    let mut text = Vec::new(alloc);
    let mut later = false;
    loop {
        if !pairs.advance()? {
            return Ok(());
        }
        text.clear();
        add_comma(&mut text, later)?;
        add_member(&mut text, pairs.key(), pairs.value())?;
        output.write_bytes(text.as_slice())?;
        later = true;
    }
}

/// Writes the pairs to come as an object, and a line feed. The keys are UTF-8. It allocates nothing for
/// a pair alone. If it fails, a beginning of the object was written.
pub(in crate::zerotrie_queries) fn write_object<P: TrieListing, W: Write>(
    alloc: Global,
    pairs: P,
    output: &mut Noted<W>,
) -> io::Result<()> {
    output.write_bytes(b"{")?;
    write_members(alloc, pairs, output)?;
    output.write_bytes(b"}\n")
}
