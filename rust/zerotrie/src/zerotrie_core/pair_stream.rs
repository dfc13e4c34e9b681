// Made from crates/zerotrie_core/src/pair_stream.rt by rust/make: edit that.
//! What lists pairs, each key borrowed from one buffer.

use crate::zerotrie_core::stream::ZeroTrieStream;
use crate::rstd::alloc::{AllocError, Allocator};

/// Lists pairs one after another, each key borrowed from one buffer.
///
/// ```
/// # use zerotrie::{rstd::examples::*, zerotrie_core::*, zerotrie_base::*};
/// use zerotrie::rstd::alloc::AllocError;
///
/// fn sum<S: PairStream>(most: usize, pairs: &mut S) -> Result<usize, AllocError> {
///     let mut sum = 0usize;
///     for _ in 0..most {
///         if !pairs.advance()? {
///             break;
///         }
///         sum = sum.wrapping_add(pairs.value());
///     }
///     Ok(sum)
/// }
///
/// let mut pairs = ZeroTrieStream::new::<Simple>(Global, b"a\x85b\x86");
/// assert_eq!(sum(3, &mut pairs)?, 11);
/// # Ok::<(), Fail>(())
/// ```
pub trait PairStream {
    // The pairs to come, and whether the stream has ended.

    // The current pair.

    // Whether a call of `advance` may fail. If not, it does not allocate.

    /// Moves to the next pair, and returns whether there is one. An error ends the stream. The only
    /// error is a failed allocation.
    fn advance(&mut self) -> Result<bool, AllocError>;

    /// Returns the key of the current pair, the one that the last call of `advance` moved to.
    fn key(&self) -> &[u8];

    /// Returns the value of the current pair.
    fn value(&self) -> usize;
}

impl<'a, A: Allocator> PairStream for ZeroTrieStream<'a, A> {
    fn advance(&mut self) -> Result<bool, AllocError> {
        ZeroTrieStream::advance(self)
    }

    fn key(&self) -> &[u8] {
        ZeroTrieStream::key(self)
    }

    fn value(&self) -> usize {
        ZeroTrieStream::value(self)
    }
}
