// Made from crates/zerotrie_index/src/placed.rt by rust/make: edit that.
//! Look-ups in an index that is read at places, as in a file: the memory for it does not grow.

use crate::rstd::prelude::*;
use crate::zerotrie_index::hash::{eight_at, hash_of};
use crate::zerotrie_index::reader::{bucket_of, find_in};
use crate::rstd::alloc::{AllocError, Global};

/// The most bytes of one read.
const ROOM: usize = 1 << 10;

/// Bytes that are read at places, as those of a file are. The crate's README has an example.
pub trait ReadAt {
    /// Why a read fails.
    type Error;

    /// Fills all of the room with the bytes from this place on.
    fn fill(&mut self, place: u64, room: &mut [u8]) -> Result<(), Self::Error>;
}

/// Reads the two words from this place on.
fn two_words<S: ReadAt>(source: &mut S, place: u64) -> Result<(u64, u64), S::Error> {
    let mut room = [0; 16];
    source.fill(place, &mut room)?;
    Ok((eight_at(&room, 0), eight_at(&room, 8)))
}

/// Reads as many bytes from this place on, at most `ROOM`, and appends them.
fn add_part<S: ReadAt>(
    source: &mut S,
    place: u64,
    count: usize,
    part: &mut Vec<u8>,
) -> Result<(), S::Error>
where
    S::Error: From<AllocError>,
{
    let mut all = [0; ROOM];
    let (room, _) = all.split_at_mut(count);
    source.fill(place, room)?;
    part.extend_from_slice(room)?;
    Ok(())
}

/// Reads as many bytes from this place on. Its memory grows with those that are there.
pub(in crate::made::zerotrie_index) fn read_part<S: ReadAt>(
    alloc: Global,
    source: &mut S,
    place: u64,
    len: usize,
) -> Result<Vec<u8>, S::Error>
where
    S::Error: From<AllocError>,
{
    let mut part = Vec::new(alloc);
    while part.len() < len {
        let count = (len - part.len()).min(ROOM);
        add_part(source, place + part.len() as u64, count, &mut part)?;
    }
    Ok(part)
}

/// Returns the value of a key in an index that is read at places.
///
/// Reads the seed and the number of buckets, the entry of the key's bucket and the next one, and the
/// records of the bucket if the key is marked there: in three reads, if they have at most 1,024
/// bytes. If the bytes are an index, this is what `get` returns. Of others the result is what it is
/// of each index with the bytes that were read, and unspecified if none has them; the memory that is
/// taken grows with what was read. An error is that of a read or of an allocation. If the bytes are
/// an index, each read is inside it.
pub fn get_at<S: ReadAt>(
    alloc: Global,
    source: &mut S,
    key: &[u8],
) -> Result<Option<usize>, S::Error>
where
    S::Error: From<AllocError>,
{
    let (seed, count) = two_words(source, 0)?;
    let Ok(count) = u32::try_from(count) else {
        return Ok(None);
    };
    let hash = hash_of(seed, key);
    let number = u64::from(bucket_of(count, hash));
    let (entry, next) = two_words(source, 16 + 8 * number)?;
    if (entry >> (hash % 32)) % 2 == 0 {
        return Ok(None);
    }
    let (start, end) = (entry >> 32, next >> 32);
    let Some(len) = end.checked_sub(start) else {
        return Ok(None);
    };
    let pool = 16 + 8 * (u64::from(count) + 1);
    let records = read_part(alloc, source, pool + start, len as usize)?;
    Ok(find_in(records.as_slice(), key))
}
