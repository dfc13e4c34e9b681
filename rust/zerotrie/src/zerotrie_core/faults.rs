// Made from crates/zerotrie_core/src/faults.rt by rust/make: edit that.
//! Finds the first fault of malformed bytes, and the rule of the format that fails there.
//!
//! The search visits the parts of the bytes in their order, as a walk does, and tests the first
//! node of each.

use crate::rstd::prelude::*;
use crate::zerotrie_core::branch::Branch;
use crate::zerotrie_core::node::{Node, first_node};
use crate::zerotrie_core::walk::{Part, push_behind};
use crate::zerotrie_core::well_formed::branches::{has_table, has_width};
use crate::zerotrie_core::well_formed::known_table::KnownTable;
use crate::zerotrie_core::well_formed::{Expected, is_run};
use crate::rstd::alloc::{AllocError, Allocator};
use crate::zerotrie_base::ZeroTrieWithOptions;

/// The rule of the format that fails.
#[derive(Clone, Copy, PartialEq, Eq, Debug)]
#[cfg_attr(not(feature = "__internal"), non_exhaustive)]
pub enum FaultCause {
    /// No node of the kind begins with these bytes.
    ///
    /// They are cut off, a number in them is too large, or they are a branch with one edge or with
    /// offsets that are wider than the kind allows.
    NoNode,
    /// A span begins, and the kind has no spans.
    NoSpans,
    /// The bytes end where a key has to continue: after a literal or a span, or at the beginning of
    /// a target.
    UnexpectedEnd,
    /// A value follows a value.
    ValueAfterValue,
    /// A span follows a span. They should be one.
    SpanAfterSpan,
    /// A span has no bytes.
    EmptySpan,
    /// A span has a byte below 128.
    AsciiInSpan,
    /// The search table of a branch is invalid.
    ///
    /// Its edges do not ascend, or it is hashed and does not find each edge at its place, or an
    /// edge is not ASCII in a kind over ASCII keys.
    WrongTable,
    /// The offsets of a branch do not have the least width that reaches all its targets.
    WrongWidth,
    /// The offsets of a branch do not ascend, or one is beyond the last target, so a target is
    /// empty or missing.
    WrongOffsets,
}

impl core::fmt::Display for FaultCause {
    #[inline]
    fn fmt(&self, f: &mut core::fmt::Formatter<'_>) -> core::fmt::Result {
        write!(f, "{}", self.text())
    }
}

impl core::error::Error for FaultCause {}

impl FaultCause {
    /// Returns the rule in words, as the message of an error has it.
    ///
    /// ```
    /// # use zerotrie::{rstd::examples::*, zerotrie_core::*, zerotrie_base::*};
    /// assert_eq!(FaultCause::EmptySpan.text(), "a span is empty");
    /// # Ok::<(), Fail>(())
    /// ```
    pub fn text(self) -> &'static str {
        match self {
            FaultCause::NoNode => "no whole node of this kind of trie begins here",
            FaultCause::NoSpans => "a span stands in a kind of trie that has none",
            FaultCause::UnexpectedEnd => "the bytes end where a key has to go on",
            FaultCause::ValueAfterValue => "a value follows a value",
            FaultCause::SpanAfterSpan => "a span follows a span",
            FaultCause::EmptySpan => "a span is empty",
            FaultCause::AsciiInSpan => "a span has an ASCII byte",
            FaultCause::WrongTable => {
                "the search table of a branch is not one of this kind of trie"
            }
            FaultCause::WrongWidth => "the offsets of a branch do not have the least width",
            FaultCause::WrongOffsets => "the offsets of a branch do not ascend within its targets",
        }
    }
}

/// The first fault of malformed bytes.
#[derive(Clone, Copy, PartialEq, Eq, Debug)]
#[cfg_attr(not(feature = "__internal"), non_exhaustive)]
pub struct Fault {
    /// The number of bytes before the malformed node, or before the end that comes too early.
    pub place: usize,
    /// The rule that fails there.
    pub cause: FaultCause,
}

impl core::fmt::Display for Fault {
    #[inline]
    fn fmt(&self, f: &mut core::fmt::Formatter<'_>) -> core::fmt::Result {
        let Self { place, cause } = self;
        write!(f, "{cause}, at byte {place}")
    }
}

impl core::error::Error for Fault {}

/// Returns the fault where no node begins, or `None` at a valid end.
fn no_node_fault<K: ZeroTrieWithOptions>(expected: Expected, bytes: &[u8]) -> Option<FaultCause> {
    if bytes.is_empty() {
        return (!expected.takes_end()).then_some(FaultCause::UnexpectedEnd);
    }
    if !K::SPANS && bytes[0] / 32 == 5 {
        return Some(FaultCause::NoSpans);
    }
    Some(FaultCause::NoNode)
}

fn span_fault<K: ZeroTrieWithOptions>(expected: Expected, run: &[u8]) -> Option<FaultCause> {
    if !expected.takes_span() {
        Some(FaultCause::SpanAfterSpan)
    } else if run.is_empty() {
        Some(FaultCause::EmptySpan)
    } else if !is_run(run) {
        Some(FaultCause::AsciiInSpan)
    } else {
        None
    }
}

/// Returns whether the offsets ascend within the targets, so that no target is empty.
fn has_offsets(branch: &Branch<'_>) -> bool {
    let len = branch.targets().len();
    let mut begin = 0;
    for index in 0..branch.edges {
        let end = branch.end_at(index);
        if end <= begin || len < end {
            return false;
        }
        begin = end;
    }
    true
}

fn branch_fault<K: ZeroTrieWithOptions>(branch: Branch<'_>) -> Option<FaultCause> {
    let (_, body) = branch.behind.split_at(branch.edges);
    if !has_table::<K>(&branch, branch.behind, &mut KnownTable::none()) {
        Some(FaultCause::WrongTable)
    } else if !has_width(body, branch.width * (branch.edges - 1), branch.width) {
        Some(FaultCause::WrongWidth)
    } else if !has_offsets(&branch) {
        Some(FaultCause::WrongOffsets)
    } else {
        None
    }
}

fn node_fault<K: ZeroTrieWithOptions>(expected: Expected, node: Node<'_>) -> Option<FaultCause> {
    match node {
        Node::Value(_, _) if !expected.takes_value() => Some(FaultCause::ValueAfterValue),
        Node::Value(_, _) | Node::Literal(_, _) => None,
        Node::Span(run, _rest) => span_fault::<K>(expected, run),
        Node::Branch(branch) => branch_fault::<K>(branch),
    }
}

/// Returns the fault at the beginning of bytes whose first node is `node`.
fn front_fault<K: ZeroTrieWithOptions>(
    expected: Expected,
    bytes: &[u8],
    node: Option<Node<'_>>,
) -> Option<FaultCause> {
    match node {
        None => no_node_fault::<K>(expected, bytes),
        Some(node) => node_fault::<K>(expected, node),
    }
}

/// Returns what may begin the part after this node, or after none.
fn expected_next(node: Option<Node<'_>>) -> Expected {
    match node {
        Some(Node::Value(_value, _rest)) => Expected::NoValue,
        Some(Node::Span(_run, _rest)) => Expected::NoSpan,
        Some(Node::Literal(_, _)) | Some(Node::Branch(_)) | None => Expected::Something,
    }
}

/// Adds the parts that follow the first node of a part, if it has one.
fn push_next<'a, A: Allocator>(
    parts: &mut Vec<Part<'a>, A>,
    at: Part<'a>,
    node: Option<Node<'a>>,
) -> Result<(), AllocError> {
    match node {
        None => Ok(()),
        Some(node) => push_behind(parts, at, node),
    }
}

/// Returns the first place where the bytes are malformed and the rule that fails there, or `None`
/// if they are valid.
///
/// ```
/// # use zerotrie::{rstd::examples::*, zerotrie_core::*, zerotrie_base::*};
/// assert_eq!(first_fault::<Hash, _>(Global, b"a\x85")?, None);  // "a" with value 5
/// let faults: [(&[u8], usize, FaultCause); 9] = [
///     (b"ab\x90", 2, FaultCause::NoNode),                          // the value is cut off
///     (b"ab", 2, FaultCause::UnexpectedEnd),
///     (b"a\x81\x82", 2, FaultCause::ValueAfterValue),
///     (b"\xA1\xC3\xA1\xA4\x85", 2, FaultCause::SpanAfterSpan),
///     (b"\xA0\x85", 0, FaultCause::EmptySpan),
///     (b"\xA1a\x85", 0, FaultCause::AsciiInSpan),
///     (b"a\xC2cb\x01\x81\x82", 1, FaultCause::WrongTable),         // the edges are "c" and "b"
///     (b"a\xE1\x62bc\x00\x01\x81\x82", 1, FaultCause::WrongWidth), // the offset has two bytes
///     (b"a\xC2bc\x02\x81\x82", 1, FaultCause::WrongOffsets),       // the target of "c" is empty
/// ];
/// for (bytes, place, cause) in faults {
///     let fault = first_fault::<Hash, _>(Global, bytes)?;
///     assert_eq!(fault, Some(Fault { place, cause }));
/// }
/// let of_another_kind = first_fault::<Simple, _>(Global, b"a\xA1\xC3\x85")?;
/// assert_eq!(of_another_kind, Some(Fault { place: 1, cause: FaultCause::NoSpans }));
/// # Ok::<(), Fail>(())
/// ```
///
/// If several rules fail there, returns one of them. Works on any bytes, and reads each of them at
/// most a few times. Allocates memory for the branches that are nested. The only error is that an
/// allocation failed.
pub fn first_fault<K: ZeroTrieWithOptions, A: Allocator>(
    alloc: A,
    bytes: &[u8],
) -> Result<Option<Fault>, AllocError> {
    let mut parts = Vec::new(alloc);
    parts.push(Part::whole(bytes))?;
    let mut expected = Expected::Anything;
    while let Some(part) = parts.pop() {
        let node = first_node::<K>(part.bytes);
        if let Some(cause) = front_fault::<K>(expected, part.bytes, node) {
            let place = part.place;
            return Ok(Some(Fault { place, cause }));
        }
        push_next(&mut parts, part, node)?;
        expected = expected_next(node);
    }
    Ok(None)
}
