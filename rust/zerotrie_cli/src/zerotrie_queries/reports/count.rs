// Made from crates/zerotrie_queries/src/reports/count.rt by rust/make: edit that.
//! The report of a trie: what it is made of, counted by one pass over its nodes.

use crate::zerotrie_queries::reports::branches::Branches;
use crate::rstd::alloc::{AllocError, Global};
use crate::zerotrie_core::{Node, Nodes, Trie, TrieKind, TrieRef, Visit};

/// What a trie is made of.
#[derive(Clone, Copy, PartialEq, Eq, Debug)]
pub struct Report {
    /// Its kind.
    pub kind: TrieKind,
    /// How many bytes it has.
    pub bytes: usize,
    /// How many nodes it has.
    pub nodes: usize,
    /// How many pairs it has.
    pub pairs: usize,
    /// The greatest value. `None` if it has no pair.
    pub greatest: Option<usize>,
    /// The most branches that a key passes.
    pub depth: usize,
    /// How many nodes are literals.
    pub literals: usize,
    /// How many nodes are spans.
    pub spans: usize,
    /// The branches.
    pub branches: Branches,
}

impl Report {
    /// Returns a report with no node counted yet.
    fn of_none(kind: TrieKind, bytes: usize) -> Self {
        Report {
            kind,
            bytes,
            nodes: 0,
            pairs: 0,
            greatest: None,
            depth: 0,
            literals: 0,
            spans: 0,
            branches: Branches::new(),
        }
    }

    fn add(&mut self, visit: &Visit<'_>) {
        self.nodes += 1;
        match visit.node {
            Node::Value(value, _after) => {
                self.pairs += 1;
                self.greatest = Some(self.greatest.map_or(value, |most| most.max(value)));
                self.depth = self.depth.max(visit.part.depth);
            }
            Node::Literal(_byte, _after) => self.literals += 1,
            Node::Span(_run, _after) => self.spans += 1,
            Node::Branch(branch) => self.branches.add(branch.edges, branch.width),
        }
    }

    /// Counts the remaining nodes of a walk.
    fn add_all(&mut self, nodes: &mut Nodes<'_>) -> Result<(), AllocError> {
        while let Some(visit) = nodes.next_node()? {
            self.add(&visit);
        }
        Ok(())
    }

    /// Returns the report of a trie.
    ///
    /// It visits each node once. It keeps the branches around the current node in memory. The only
    /// error is that it is out of memory.
    pub fn of(alloc: Global, trie: &TrieRef<'_>) -> Result<Self, AllocError> {
        let mut report = Report::of_none(trie.kind, trie.bytes.len());
        let mut nodes = trie.nodes(alloc)?;
        report.add_all(&mut nodes)?;
        Ok(report)
    }
}
