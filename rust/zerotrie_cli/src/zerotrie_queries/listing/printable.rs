// Made from crates/zerotrie_queries/src/listing/printable.rt by rust/make: edit that.
//! Which keys can be printed in a form.

use crate::rstd::prelude::*;
use crate::zerotrie_queries::print::{Form, Style};
use crate::zerotrie_queries::text::is_text;
use crate::rstd::alloc::{AllocError, Global};
use crate::zerotrie_search::TrieListing;

/// Returns whether a byte is no tab and no line feed.
fn is_raw(byte: u8) -> bool {
    byte != b'\t' && byte != b'\n'
}

fn are_raw(bytes: &[u8]) -> bool {
    for byte in bytes {
        if !is_raw(*byte) {
            return false;
        }
    }
    true
}

/// Returns whether a form can print every key.
pub(in crate::zerotrie_queries) fn takes_all_keys(form: Form) -> bool {
    match form {
        Form::Lines(style) => style != Style::TsvRaw,
        Form::Distances | Form::Count => true,
        Form::Json => false,
    }
}

/// Returns whether a form can print a key.
fn can_print(form: Form, key: &[u8]) -> bool {
    match form {
        Form::Lines(Style::TsvRaw) => are_raw(key),
        Form::Lines(Style::Tsv | Style::Csv | Style::JsonLines | Style::Keys | Style::Values)
        | Form::Distances
        | Form::Count => true,
        Form::Json => is_text(key),
    }
}

pub(in crate::zerotrie_queries) fn copied(alloc: Global, bytes: &[u8]) -> Result<Vec<u8>, AllocError> {
    let mut copy = Vec::new(alloc);
    copy.extend_from_slice(bytes)?;
    Ok(copy)
}

/// Returns the first of the keys to come that a form can't print, if there is one.
pub(in crate::zerotrie_queries) fn first_unprintable_of<P: TrieListing>(
    alloc: Global,
    form: Form,
    mut pairs: P,
) -> Result<Option<Vec<u8>>, AllocError> {
    loop {
        if !pairs.advance()? {
            return Ok(None);
        }
        if !can_print(form, pairs.key()) {
            return Ok(Some(copied(alloc, pairs.key())?));
        }
    }
}
