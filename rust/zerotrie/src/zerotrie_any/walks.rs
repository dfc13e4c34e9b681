// Made from crates/zerotrie_any/src/walks.rt by rust/make: edit that.
//! Lists of calls of a cursor.

use crate::rstd::prelude::*;
use crate::rstd::alloc::{AllocError, Global};
use crate::zerotrie_core::{SpanCursor, ZeroTrieWithOptions};

/// One call of a cursor.
#[derive(Clone, Debug, PartialEq, Eq)]
pub enum CursorOp {
    /// Follows the edge for this byte, ignoring case if the kind does.
    Step(u8),
    /// Takes the value of the key that ends here.
    Take,
    /// Follows the edge with this index.
    Probe(usize),
}

/// The result of one call of a cursor.
#[derive(Clone, Debug, PartialEq, Eq)]
pub enum CursorAnswer {
    /// The byte of the edge, as it is stored.
    Stepped(Option<u8>),
    /// The value.
    Taken(Option<usize>),
    /// The byte of the edge, and the number of edges here.
    Probed(Option<(u8, u16)>),
}

/// Makes one call.
fn turn<K: ZeroTrieWithOptions>(cursor: &mut SpanCursor<'_>, op: &CursorOp) -> CursorAnswer {
    match op {
        CursorOp::Step(byte) => CursorAnswer::Stepped(cursor.step::<K>(*byte)),
        CursorOp::Take => CursorAnswer::Taken(cursor.take_value()),
        CursorOp::Probe(index) => CursorAnswer::Probed(
            cursor
                .probe::<K>(*index)
                .map(|found| (found.byte, found.total_siblings)),
        ),
    }
}

/// Makes these calls on a new cursor, one after another, and returns their results.
///
/// ```
/// # use zerotrie::{rstd::examples::*, zerotrie_any::*, zerotrie_base::*, zerotrie_core::*, zerotrie_build::*};
/// let bytes = [0x61, 0x85];                           // the key "a" with value 5
/// let ops = [CursorOp::Step(b'a'), CursorOp::Take, CursorOp::Take, CursorOp::Probe(0)];
/// let answers = walk::<Simple>(Global, &bytes, &ops)?;
/// assert_eq!(answers[0], CursorAnswer::Stepped(Some(b'a')));
/// assert_eq!(answers[1], CursorAnswer::Taken(Some(5)));
/// assert_eq!(answers[2], CursorAnswer::Taken(None));
/// assert_eq!(answers[3], CursorAnswer::Probed(None));
/// # Ok::<(), Fail>(())
/// ```
///
/// An error means that an allocation failed. On malformed bytes the results are unspecified.
pub fn walk<K: ZeroTrieWithOptions>(
    alloc: Global,
    bytes: &[u8],
    ops: &[CursorOp],
) -> Result<Vec<CursorAnswer>, AllocError> {
    let mut cursor = SpanCursor::new(bytes);
    let mut answers = Vec::new(alloc);
    for op in ops {
        let answer = turn::<K>(&mut cursor, op);
        answers.push(answer)?;
    }
    Ok(answers)
}
