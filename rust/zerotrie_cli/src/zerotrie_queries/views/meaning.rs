// Made from crates/zerotrie_queries/src/views/meaning.rt by rust/make: edit that.
//! What a node means, as text.

use crate::rstd::prelude::*;
use crate::zerotrie_queries::print::add_text;
use crate::rstd::alloc::AllocError;
use crate::zerotrie_core::{Branch, Node};
use crate::zerotrie_lines::{hex_digit, write_escaped, write_number};

pub fn add_hex(line: &mut Vec<u8>, bytes: &[u8]) -> Result<(), AllocError> {
    for byte in bytes {
        line.push(hex_digit(*byte / 16))?;
        line.push(hex_digit(*byte % 16))?;
    }
    Ok(())
}

/// Returns the word for the table of a branch.
fn table_text(branch: &Branch<'_>) -> &'static str {
    if branch.table.len() > branch.edges {
        "hashed"
    } else {
        "sorted"
    }
}

fn add_edges(line: &mut Vec<u8>, branch: &Branch<'_>) -> Result<(), AllocError> {
    add_text(line, "branch of ")?;
    write_number(line, branch.edges)?;
    add_text(line, " edges, ")?;
    add_text(line, table_text(branch))
}

fn add_offsets(line: &mut Vec<u8>, width: usize, edges: &[u8]) -> Result<(), AllocError> {
    add_text(line, ", offsets of width ")?;
    write_number(line, width)?;
    add_text(line, ": ")?;
    write_escaped(line, edges)
}

fn add_branch(line: &mut Vec<u8>, branch: &Branch<'_>) -> Result<(), AllocError> {
    let (edges, _) = branch.behind.split_at(branch.edges);
    add_edges(line, branch)?;
    add_offsets(line, branch.width, edges)
}

/// Adds what a node means.
pub fn add_meaning(line: &mut Vec<u8>, node: &Node<'_>) -> Result<(), AllocError> {
    match node {
        Node::Value(value, _after) => {
            add_text(line, "value ")?;
            write_number(line, *value)
        }
        Node::Literal(byte, _after) => {
            add_text(line, "literal ")?;
            write_escaped(line, &[*byte])
        }
        Node::Span(run, _after) => {
            add_text(line, "span ")?;
            write_escaped(line, run)
        }
        Node::Branch(branch) => add_branch(line, branch),
    }
}
