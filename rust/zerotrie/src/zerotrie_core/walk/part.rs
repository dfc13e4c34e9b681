// Made from crates/zerotrie_core/src/walk/part.rt by rust/make: edit that.
//! A part of the bytes of a trie, and its place.

/// A part of the bytes of a trie, and how it is reached.
#[derive(Clone, Copy, Debug)]
pub struct Part<'a> {
    /// The number of bytes before it.
    pub place: usize,
    /// The number of branches above it.
    pub depth: usize,
    /// The place of the node that it follows, or `None` if it is all of the bytes.
    pub above: Option<usize>,
    /// The byte of its edge, if it is the target of a branch.
    pub edge: Option<u8>,
    /// Its bytes, up to the end of the innermost target that it is in.
    pub bytes: &'a [u8],
}

impl<'a> Part<'a> {
    /// Returns the part that is all of these bytes.
    pub(in crate::made::zerotrie_core) fn whole(bytes: &'a [u8]) -> Self {
        Part {
            place: 0,
            depth: 0,
            above: None,
            edge: None,
            bytes,
        }
    }

    /// Returns the part after the first node, which is `rest`.
    pub(in crate::made::zerotrie_core) fn after(self, rest: &'a [u8]) -> Self {
        Part {
            place: self.place + (self.bytes.len() - rest.len()),
            depth: self.depth,
            above: Some(self.place),
            edge: None,
            bytes: rest,
        }
    }

    /// Returns the target of an edge of the branch at the beginning of this part.
    pub(in crate::made::zerotrie_core) fn below_edge(self, place: usize, edge: u8, bytes: &'a [u8]) -> Self {
        Part {
            place,
            depth: self.depth + 1,
            above: Some(self.place),
            edge: Some(edge),
            bytes,
        }
    }
}
