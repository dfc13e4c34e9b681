// Made from crates/zerotrie_core/src/stream.rt by rust/make: edit that.
//! Lists the pairs of a trie, one after another, each key borrowed from one buffer.
//!
//! A stream reads the nodes in the order of the bytes. It keeps the bytes that come next, the key
//! so far, and the open branches, which still have targets to come. No function here is recursive,
//! so a trie of any depth is listed.

use crate::rstd::prelude::*;

mod open_branches;
mod opened;

use crate::zerotrie_core::branch::Branch;
use crate::zerotrie_core::here::Here;
use crate::zerotrie_core::node::{Node, first_node};
use crate::zerotrie_core::span_cursor::SpanCursor;
use open_branches::OpenBranches;
use opened::OpenBranch;
use crate::rstd::alloc::{AllocError, Allocator, Global};
use crate::zerotrie_base::{ZeroTrieBuilderOptions, ZeroTrieWithOptions, by_kind, folded};

/// Lists the pairs of a trie, one after another, each key borrowed from one buffer. A value comes
/// before what follows it, and the targets of a branch come in the order of its table.
///
/// ```
/// # use zerotrie::{rstd::examples::*, zerotrie_core::*, zerotrie_base::*};
/// let bytes = [0x61, 0x85, 0x62, 0x86];       // the keys "a" with value 5 and "ab" with value 6
/// let mut pairs = ZeroTrieStream::new::<Simple>(Global, &bytes);
/// assert!(pairs.advance()?);
/// assert_eq!((pairs.key(), pairs.value()), (b"a".as_slice(), 5));
/// assert!(pairs.advance()?);
/// assert_eq!((pairs.key(), pairs.value()), (b"ab".as_slice(), 6));
/// assert!(!pairs.advance()?);
/// # Ok::<(), Fail>(())
/// ```
///
/// It allocates only to hold a longer key or more open branches than before, and nothing for each
/// pair. On malformed bytes it lists the pairs of the nodes up to the first place where none
/// begins. Of any n bytes it lists at most n pairs. To prove that a loop over a stream ends, write
/// `for _ in 0..=bytes.len()` and `break` at the end.
#[derive(Debug)]
#[derive(Clone)]
pub struct ZeroTrieStream<'a, A: Allocator = Global> {
    options: ZeroTrieBuilderOptions,
    here: Here<'a>,
    key: Vec<u8, A>,
    value: usize,
    branches: OpenBranches<'a, A>,
    ended: bool,
}

impl<'a, A: Allocator> ZeroTrieStream<'a, A> {
    /// Moves to the next pair, and returns whether there is one. An error ends the stream.
    ///
    /// The only error is a failed allocation for a longer key or a deeper branch.
    pub fn advance(&mut self) -> Result<bool, AllocError> {
        if self.ended {
            return Ok(false);
        }
        self.ended = true;
        let found = next_value_of(
            self.options,
            &mut self.here,
            &mut self.key,
            &mut self.branches,
        )?;
        let Some(value) = found else {
            return Ok(false);
        };
        self.value = value;
        self.ended = false;
        Ok(true)
    }

    /// Returns the key of the current pair, the one that the last call of `advance` moved to.
    /// Before the first call and after the end, it is not a key of the trie.
    #[inline]
    pub fn key(&self) -> &[u8] {
        self.key.as_slice()
    }

    /// Returns the value of the current pair.
    #[inline]
    pub fn value(&self) -> usize {
        self.value
    }

    /// Skips the pairs that come next, as far as their keys begin with the first `depth` bytes of
    /// the current key. The key and its value stay.
    ///
    /// ```
    /// # use zerotrie::{rstd::examples::*, zerotrie_core::*, zerotrie_base::*};
    /// // the keys "ab", "ac" and "b" with values 1, 2 and 3
    /// let bytes = b"\xC2ab\x06\xC2bc\x01\x81\x82\x83";
    /// let mut pairs = ZeroTrieStream::new::<Simple>(Global, bytes);
    /// assert!(pairs.advance()?);
    /// assert_eq!(pairs.key(), b"ab".as_slice());
    /// pairs.skip(1);
    /// assert!(pairs.advance()?);
    /// assert_eq!(pairs.key(), b"b".as_slice());
    /// # Ok::<(), Fail>(())
    /// ```
    ///
    /// In a trie, no key that comes later begins with these bytes. So a program that wants none of
    /// them reads nothing of the others. It does not allocate. With a depth of 0 nothing more comes.
    pub fn skip(&mut self, depth: usize) {
        self.here = Here::nowhere();
        self.branches.leave(depth.min(self.key.len()));
    }

    /// Lists nothing more.
    pub fn end(&mut self) {
        self.ended = true;
    }
}

impl<'a, A: Allocator + Copy> ZeroTrieStream<'a, A> {
    /// Lists the pairs of these bytes. It does not allocate before the first call of `advance`.
    pub fn new<K: ZeroTrieWithOptions>(alloc: A, bytes: &'a [u8]) -> Self {
        ZeroTrieStream::behind::<K>(Vec::new(alloc), bytes)
    }

    /// Returns a copy of the key.
    pub(in crate::made::zerotrie_core) fn key_copy(&self) -> Result<Vec<u8, A>, AllocError> {
        Vec::from_slice(*self.key.allocator(), self.key.as_slice())
    }

    /// Lists the pairs of these bytes, each key with this prefix.
    fn behind<K: ZeroTrieWithOptions>(front: Vec<u8, A>, bytes: &'a [u8]) -> Self {
        let branches = OpenBranches::closed(*front.allocator());
        ZeroTrieStream::standing::<K>(Here::at(bytes), front, 0, branches)
    }

    /// Lists the pairs that are left after the one with this key and value.
    fn standing<K: ZeroTrieWithOptions>(
        here: Here<'a>,
        key: Vec<u8, A>,
        value: usize,
        branches: OpenBranches<'a, A>,
    ) -> Self {
        ZeroTrieStream {
            options: ZeroTrieBuilderOptions::of::<K>(),
            here,
            key,
            value,
            branches,
            ended: false,
        }
    }

    /// Lists the pairs below a cursor: of each key that begins with the cursor's steps, what comes
    /// after them.
    ///
    /// ```
    /// # use zerotrie::{rstd::examples::*, zerotrie_core::*, zerotrie_base::*};
    /// let mut cursor = SpanCursor::new(b"a\xA2\xC3\xA5\x85");     // the key "aå" with value 5
    /// cursor.step::<Hash>(b'a');
    /// cursor.step::<Hash>(0xC3);
    /// let mut pairs = ZeroTrieStream::from_cursor::<Hash>(Global, cursor)?;
    /// assert!(pairs.advance()?);
    /// assert_eq!((pairs.key(), pairs.value()), (b"\xA5".as_slice(), 5));
    /// # Ok::<(), Fail>(())
    /// ```
    ///
    /// It allocates only if the cursor is inside a span, and then for the rest of that span.
    pub fn from_cursor<K: ZeroTrieWithOptions>(
        alloc: A,
        cursor: SpanCursor<'a>,
    ) -> Result<Self, AllocError> {
        let (run, rest) = cursor.parts();
        let mut front = Vec::new(alloc);
        front.extend_from_slice(run)?;
        Ok(ZeroTrieStream::behind::<K>(front, rest))
    }

    /// Lists the pairs whose keys begin with a prefix, as the kind compares bytes. Each has its
    /// whole key, and they keep the order of all pairs.
    ///
    /// ```
    /// # use zerotrie::{rstd::examples::*, zerotrie_core::*, zerotrie_base::*};
    /// let bytes = b"a\xC2bc\x01\x81\x82";      // the keys "ab" with value 1 and "ac" with value 2
    /// let mut pairs = ZeroTrieStream::with_prefix::<Simple>(Global, bytes, b"ac")?;
    /// assert!(pairs.advance()?);
    /// assert_eq!(pairs.key(), b"ac".as_slice());
    /// assert!(!pairs.advance()?);
    /// # Ok::<(), Fail>(())
    /// ```
    ///
    /// It follows the prefix and reads no other part of the trie. The prefix may end inside a span.
    pub fn with_prefix<K: ZeroTrieWithOptions>(
        alloc: A,
        bytes: &'a [u8],
        prefix: &[u8],
    ) -> Result<Self, AllocError> {
        match down_to::<K, A>(alloc, bytes, prefix)? {
            Some((front, rest)) => Ok(ZeroTrieStream::behind::<K>(front, rest)),
            None => Ok(ZeroTrieStream::new::<K>(alloc, &[])),
        }
    }

    /// Lists the pairs of these bytes that come after a key, each key with this prefix. Returns
    /// `None` if no pair has the key.
    fn past<K: ZeroTrieWithOptions>(
        front: Vec<u8, A>,
        bytes: &'a [u8],
        sought: &[u8],
    ) -> Result<Option<Self>, AllocError> {
        let Some(mut left) = after_front::<K>(front.as_slice(), sought) else {
            return Ok(None);
        };
        let mut at = Here::at(bytes);
        let mut branches = OpenBranches::closed(*front.allocator());
        let mut key = front;
        while let Some(node) = first_node::<K>(at.rest) {
            let passed = match node {
                Node::Value(value, after) => {
                    at = at.behind(after);
                    if left.is_empty() {
                        return Ok(Some(ZeroTrieStream::standing::<K>(at, key, value, branches)));
                    }
                    Some((at, left))
                }
                Node::Literal(edge, after) => past_literal::<K, A>(
                    at, edge, after, left, &mut key,
                )?,
                Node::Span(run, after) => past_span::<K, A>(at, run, after, left, &mut key)?,
                Node::Branch(branch) => {
                    past_branch::<K, A>(at, branch, left, &mut key, &mut branches)?
                }
            };
            let Some((next, more)) = passed else {
                return Ok(None);
            };
            at = next;
            left = more;
        }
        Ok(None)
    }

    /// Lists the pairs that come after a key, of those whose keys begin with a prefix, or of all
    /// pairs if the prefix is empty. Lists none if no such pair has the key, as the kind compares
    /// bytes.
    ///
    /// ```
    /// # use zerotrie::{rstd::examples::*, zerotrie_core::*, zerotrie_base::*};
    /// // the keys "a" with value 1, "ab" with value 2 and "abc" with value 3
    /// let bytes = b"a\x81b\x82c\x83";
    /// let mut pairs = ZeroTrieStream::after::<Simple>(Global, bytes, b"", b"ab")?;
    /// assert!(pairs.advance()?);
    /// assert_eq!(pairs.key(), b"abc".as_slice());
    /// assert!(!pairs.advance()?);
    /// # Ok::<(), Fail>(())
    /// ```
    ///
    /// So a program can continue a listing from the last key that it read. This costs as much as a
    /// look-up of the key, and reads no pair before it.
    pub fn after<K: ZeroTrieWithOptions>(
        alloc: A,
        bytes: &'a [u8],
        prefix: &[u8],
        key: &[u8],
    ) -> Result<Self, AllocError> {
        let Some((front, rest)) = down_to::<K, A>(alloc, bytes, prefix)? else {
            return Ok(ZeroTrieStream::new::<K>(alloc, &[]));
        };
        match ZeroTrieStream::past::<K>(front, rest, key)? {
            Some(stream) => Ok(stream),
            None => Ok(ZeroTrieStream::new::<K>(alloc, &[])),
        }
    }
}

/// Follows a prefix, as the kind compares bytes. Returns the part of the keys that was read, and
/// the bytes after it, or `None` if no key begins with the prefix. If the prefix ends inside a
/// span, all of the span is read.
fn down_to<'a, K: ZeroTrieWithOptions, A: Allocator>(
    alloc: A,
    bytes: &'a [u8],
    prefix: &[u8],
) -> Result<Option<(Vec<u8, A>, &'a [u8])>, AllocError> {
    let mut front = Vec::new(alloc);
    let mut cursor = SpanCursor::new(bytes);
    for byte in prefix {
        let Some(edge) = cursor.step::<K>(*byte) else {
            return Ok(None);
        };
        front.push(edge)?;
    }
    let (run, rest) = cursor.parts();
    front.extend_from_slice(run)?;
    Ok(Some((front, rest)))
}

/// Returns the rest of a key after a prefix, as the kind compares bytes, or `None` if the key does
/// not begin with the prefix.
fn after_front<'k, K: ZeroTrieWithOptions>(front: &[u8], key: &'k [u8]) -> Option<&'k [u8]> {
    let mut left = key;
    for edge in front {
        left = after_edge::<K>(*edge, left)?;
    }
    Some(left)
}

/// Returns the rest of a key after an edge, as the kind compares bytes, or `None` if the key does
/// not begin with the edge.
#[inline(always)]
fn after_edge<'k, K: ZeroTrieWithOptions>(edge: u8, key: &'k [u8]) -> Option<&'k [u8]> {
    let (byte, left) = key.split_first()?;
    (folded::<K>(edge) == folded::<K>(*byte)).then_some(left)
}

/// Follows a literal towards a key, of which `left` is the rest. Returns `None` if no pair has the
/// key.
fn past_literal<'a, 'k, K: ZeroTrieWithOptions, A: Allocator>(
    here: Here<'a>,
    edge: u8,
    after: &'a [u8],
    left: &'k [u8],
    key: &mut Vec<u8, A>,
) -> Result<Option<(Here<'a>, &'k [u8])>, AllocError> {
    let Some(more) = after_edge::<K>(edge, left) else {
        return Ok(None);
    };
    key.push(edge)?;
    Ok(Some((here.behind(after), more)))
}

/// Follows a span towards a key, of which `left` is the rest. Returns `None` if no pair has the
/// key.
fn past_span<'a, 'k, K: ZeroTrieWithOptions, A: Allocator>(
    here: Here<'a>,
    run: &'a [u8],
    after: &'a [u8],
    left: &'k [u8],
    key: &mut Vec<u8, A>,
) -> Result<Option<(Here<'a>, &'k [u8])>, AllocError> {
    if !left.starts_with(run) {
        return Ok(None);
    }
    key.extend_from_slice(run)?;
    let (_, more) = left.split_at(run.len());
    Ok(Some((here.behind(after), more)))
}

/// Enters a target of a branch towards a key, of which `left` is the rest. Returns `None` if no
/// pair has the key.
fn past_branch<'a, 'k, K: ZeroTrieWithOptions, A: Allocator>(
    here: Here<'a>,
    branch: Branch<'a>,
    left: &'k [u8],
    key: &mut Vec<u8, A>,
    branches: &mut OpenBranches<'a, A>,
) -> Result<Option<(Here<'a>, &'k [u8])>, AllocError> {
    let Some((byte, more)) = left.split_first() else {
        return Ok(None);
    };
    match open_at::<K, A>(here, branch, *byte, key, branches)? {
        Some(target) => Ok(Some((target, more))),
        None => Ok(None),
    }
}

/// Opens a branch with which the rest begins, and enters the target of the edge that equals the
/// byte, as the kind compares bytes. Returns `None` if there is no such edge.
fn open_at<'a, K: ZeroTrieWithOptions, A: Allocator>(
    here: Here<'a>,
    branch: Branch<'a>,
    byte: u8,
    key: &mut Vec<u8, A>,
    branches: &mut OpenBranches<'a, A>,
) -> Result<Option<Here<'a>>, AllocError> {
    let Some(place) = branch.place_of::<K>(byte) else {
        return Ok(None);
    };
    let mut inner = OpenBranch::new(here, branch, key.len()).at_edge(place);
    let Some(target) = inner.target() else {
        return Ok(None);
    };
    inner.begin += target.rest.len();
    inner.next += 1;
    branches.open(inner)?;
    key.push(branch.edge_at(place))?;
    Ok(Some(target))
}

/// Moves literals from the rest to the end of the key, at most sixteen. The rest must begin with
/// one.
#[inline(always)]
fn push_literals<'a, A: Allocator>(
    here: Here<'a>,
    key: &mut Vec<u8, A>,
) -> Result<Here<'a>, AllocError> {
    if here.tail.len() < 16 {
        key.push(here.rest[0])?;
        return Ok(here.after(1));
    }
    push_some(here, key, here.literals().max(1))
}

/// Moves literals from the rest to the end of the key, at most sixteen, and none if fewer than
/// sixteen bytes are left in the trie.
///
/// It does not branch on the bytes that it reads, so it costs little if they are not literals.
#[inline(always)]
fn push_run<'a, A: Allocator>(here: Here<'a>, key: &mut Vec<u8, A>) -> Result<Here<'a>, AllocError> {
    if here.tail.len() < 16 {
        return Ok(here);
    }
    push_some(here, key, here.literals())
}

/// Moves `count` bytes from the rest to the end of the key. It copies sixteen bytes at once and
/// then cuts the key, so that a copy has the same length each time.
#[inline(always)]
fn push_some<'a, A: Allocator>(
    here: Here<'a>,
    key: &mut Vec<u8, A>,
    count: usize,
) -> Result<Here<'a>, AllocError> {
    let len = key.len();
    let (sixteen, _) = here.tail.split_at(16);
    key.extend_from_slice(sixteen)?;
    key.truncate(len + count);
    Ok(here.after(count))
}

/// Moves to the next value and returns it, or `None` at the end. `key` is then its key.
fn next_value<'a, K: ZeroTrieWithOptions, A: Allocator>(
    here: &mut Here<'a>,
    key: &mut Vec<u8, A>,
    branches: &mut OpenBranches<'a, A>,
) -> Result<Option<usize>, AllocError> {
    let mut at = *here;
    loop {
        match first_node::<K>(at.rest) {
            None => {
                if !branches.has_target() {
                    *here = Here::nowhere();
                    return Ok(None);
                }
                at = push_run(branches.enter(key)?, key)?;
            }
            Some(Node::Value(value, after)) => {
                *here = at.behind(after);
                return Ok(Some(value));
            }
            Some(Node::Literal(_byte, _after)) => at = push_literals(at, key)?,
            Some(Node::Span(run, after)) => {
                key.extend_from_slice(run)?;
                at = at.behind(after);
            }
            Some(Node::Branch(branch)) => {
                branches.open(OpenBranch::new(at, branch, key.len()))?;
                at = Here::nowhere();
            }
        }
    }
}

/// Calls `next_value` for the kind that the options name.
fn next_value_of<'a, A: Allocator>(
    options: ZeroTrieBuilderOptions,
    here: &mut Here<'a>,
    key: &mut Vec<u8, A>,
    branches: &mut OpenBranches<'a, A>,
) -> Result<Option<usize>, AllocError> {
    by_kind!(options.kind(), next_value::<_, A>(here, key, branches))
}
