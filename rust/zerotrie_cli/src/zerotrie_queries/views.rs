// Made from crates/zerotrie_queries/src/views.rt by rust/make: edit that.
//! Looks inside a trie: its nodes as lines, and as a drawing.

mod dot;
mod dump;
mod meaning;

use crate::zerotrie_queries::views::dot::write_dot;
use crate::zerotrie_queries::views::dump::write_dump;
use crate::rstd::alloc::Global;
use crate::rstd::io;
use crate::rstd::io::Write;
use crate::zerotrie_core::TrieRef;
use crate::zerotrie_files::Noted;

/// What is shown of a trie.
#[derive(Clone, Copy, PartialEq, Eq, Debug)]
pub enum View {
    /// A line for each node.
    Dump,
    /// A drawing of its first nodes, at most this many, as Graphviz reads it.
    Dot(usize),
}

/// Writes what is shown of a trie. Its bytes may be any: of what is no node nothing is shown. If it
/// fails, a beginning of what is shown was written.
pub fn write_trie_view<W: Write>(
    alloc: Global,
    trie: &TrieRef<'_>,
    view: View,
    output: &mut Noted<W>,
) -> io::Result<()> {
    match view {
        View::Dump => write_dump(alloc, trie, output),
        View::Dot(most) => write_dot(alloc, trie, most, output),
    }
}
