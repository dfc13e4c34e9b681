// Made from crates/zerotrie_queries/src/views/dump.rt by rust/make: edit that.
//! The nodes of a trie as lines.

use crate::rstd::prelude::*;
use crate::zerotrie_queries::views::meaning::{add_hex, add_meaning};
use crate::rstd::alloc::{AllocError, Global};
use crate::rstd::io;
use crate::rstd::io::Write;
use crate::zerotrie_core::{Nodes, Part, Trie, TrieRef, Visit};
use crate::zerotrie_files::Noted;
use crate::zerotrie_lines::{write_escaped, write_number};

/// Adds the byte of an edge, if there is one.
fn add_edge(line: &mut Vec<u8>, edge: Option<u8>) -> Result<(), AllocError> {
    match edge {
        Some(byte) => write_escaped(line, &[byte]),
        None => Ok(()),
    }
}

/// Adds the place of a node: of its bytes, its depth, and the byte of its edge.
fn add_stand(line: &mut Vec<u8>, part: &Part<'_>) -> Result<(), AllocError> {
    write_number(line, part.place)?;
    line.push(b'\t')?;
    write_number(line, part.depth)?;
    line.push(b'\t')?;
    add_edge(line, part.edge)
}

fn add_line(line: &mut Vec<u8>, visit: &Visit<'_>) -> Result<(), AllocError> {
    add_stand(line, &visit.part)?;
    line.push(b'\t')?;
    add_meaning(line, &visit.node)?;
    line.push(b'\t')?;
    add_hex(line, visit.own_bytes())?;
    line.push(b'\n')?;
    Ok(())
}

/// Writes the lines of the remaining nodes of a walk.
fn write_lines<W: Write>(
    alloc: Global,
    nodes: &mut Nodes<'_>,
    output: &mut Noted<W>,
) -> io::Result<()> {
    let mut line = Vec::new(alloc);
    loop {
        let Some(visit) = nodes.next_node()? else {
            return Ok(());
        };
        line.clear();
        add_line(&mut line, &visit)?;
        output.write_bytes(line.as_slice())?;
    }
}

/// Writes a line for each node of a trie, in the order of their bytes. If it fails, a beginning of
/// the lines was written.
pub fn write_dump<W: Write>(
    alloc: Global,
    trie: &TrieRef<'_>,
    output: &mut Noted<W>,
) -> io::Result<()> {
    let mut nodes = trie.nodes(alloc)?;
    write_lines(alloc, &mut nodes, output)
}
