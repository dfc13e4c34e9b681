// Made from crates/zerotrie_queries/src/views/dot.rt by rust/make: edit that.
//! The nodes of a trie as a drawing, as Graphviz reads it.

use crate::rstd::prelude::*;
use crate::zerotrie_queries::print::add_text;
use crate::rstd::alloc::{AllocError, Global};
use crate::rstd::io;
use crate::rstd::io::Write;
use crate::zerotrie_core::{Node, Nodes, Part, Trie, TrieRef, Visit};
use crate::zerotrie_files::Noted;
use crate::zerotrie_lines::{hex_digit, write_number};

/// Adds a byte to a label: printable ASCII as it is, a quotation mark and a backslash after a
/// backslash, and any other byte in hexadecimal.
fn add_quoted_byte(line: &mut Vec<u8>, byte: u8) -> Result<(), AllocError> {
    match byte {
        b'"' => add_text(line, "\\\""),
        b'\\' => add_text(line, "\\\\"),
        32..=126 => {
            line.push(byte)?;
            Ok(())
        }
        _ => {
            let text = [
                b'\\',
                b'\\',
                b'x',
                hex_digit(byte / 16),
                hex_digit(byte % 16),
            ];
            line.extend_from_slice(&text)
        }
    }
}

fn add_quoted(line: &mut Vec<u8>, bytes: &[u8]) -> Result<(), AllocError> {
    for byte in bytes {
        add_quoted_byte(line, *byte)?;
    }
    Ok(())
}

/// Returns the shape of a node in the drawing.
fn shape_text(node: &Node<'_>) -> &'static str {
    match node {
        Node::Value(_value, _after) => "box",
        Node::Literal(_byte, _after) => "ellipse",
        Node::Span(_run, _after) => "ellipse",
        Node::Branch(_branch) => "diamond",
    }
}

fn add_label(line: &mut Vec<u8>, node: &Node<'_>) -> Result<(), AllocError> {
    match node {
        Node::Value(value, _after) => write_number(line, *value),
        Node::Literal(byte, _after) => add_quoted(line, &[*byte]),
        Node::Span(run, _after) => add_quoted(line, run),
        Node::Branch(branch) => {
            write_number(line, branch.edges)?;
            add_text(line, " edges")
        }
    }
}

/// Adds the byte of an edge, if there is one.
fn add_edge(line: &mut Vec<u8>, edge: Option<u8>) -> Result<(), AllocError> {
    match edge {
        Some(byte) => add_quoted(line, &[byte]),
        None => Ok(()),
    }
}

/// Adds the two ends of a line of the drawing.
fn add_ends(line: &mut Vec<u8>, above: usize, place: usize) -> Result<(), AllocError> {
    add_text(line, "  n")?;
    write_number(line, above)?;
    add_text(line, " -> n")?;
    write_number(line, place)
}

/// Adds the line to a node from its parent, if it has one.
fn add_arrow(line: &mut Vec<u8>, part: &Part<'_>) -> Result<(), AllocError> {
    let Some(above) = part.above else {
        return Ok(());
    };
    add_ends(line, above, part.place)?;
    add_text(line, " [label=\"")?;
    add_edge(line, part.edge)?;
    add_text(line, "\"];\n")
}

fn add_name(line: &mut Vec<u8>, place: usize, node: &Node<'_>) -> Result<(), AllocError> {
    add_text(line, "  n")?;
    write_number(line, place)?;
    add_text(line, " [shape=")?;
    add_text(line, shape_text(node))
}

fn add_node(line: &mut Vec<u8>, visit: &Visit<'_>) -> Result<(), AllocError> {
    add_name(line, visit.part.place, &visit.node)?;
    add_text(line, ",label=\"")?;
    add_label(line, &visit.node)?;
    add_text(line, "\"];\n")?;
    add_arrow(line, &visit.part)
}

/// Writes the lines of the remaining nodes of a walk, at most this many.
fn write_nodes<W: Write>(
    alloc: Global,
    nodes: &mut Nodes<'_>,
    most: usize,
    output: &mut Noted<W>,
) -> io::Result<()> {
    let mut line = Vec::new(alloc);
    let mut left = most;
    while left > 0 {
        let Some(visit) = nodes.next_node()? else {
            return Ok(());
        };
        line.clear();
        add_node(&mut line, &visit)?;
        output.write_bytes(line.as_slice())?;
        left -= 1;
    }
    Ok(())
}

/// Writes a drawing of the next nodes of a walk, at most this many.
fn write_drawing<W: Write>(
    alloc: Global,
    nodes: &mut Nodes<'_>,
    most: usize,
    output: &mut Noted<W>,
) -> io::Result<()> {
    output.write_bytes(b"digraph trie {\n  rankdir=LR;\n")?;
    write_nodes(alloc, nodes, most, output)?;
    output.write_bytes(b"}\n")
}

/// Writes a drawing of the first nodes of a trie, at most this many. If it fails, a beginning of it
/// was written.
pub fn write_dot<W: Write>(
    alloc: Global,
    trie: &TrieRef<'_>,
    most: usize,
    output: &mut Noted<W>,
) -> io::Result<()> {
    let mut nodes = trie.nodes(alloc)?;
    write_drawing(alloc, &mut nodes, most, output)
}
