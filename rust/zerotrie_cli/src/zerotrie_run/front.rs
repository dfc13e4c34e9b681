// Made from crates/zerotrie_run/src/front.rt by rust/make: edit that.
//! What the first bytes of a file show: that it has no trie, and what it looks like.

use crate::zerotrie_run::command::TrieFile;
use crate::zerotrie_run::place::Opened;
use crate::zerotrie_core::TrieKind;
use crate::zerotrie_files::OpenFile;
use crate::zerotrie_making::{OtherFile, other_file};
use crate::zerotrie_queries::{OpenError, looks_like_text, open_unchecked};
use crate::zerotrie_sealed::{SealError, is_index_number};

/// How many bytes of a file show what it looks like.
const FRONT_LEN: usize = 1 << 16;

/// What a file that has no trie looks like.
#[derive(Clone, Copy, PartialEq, Eq, Debug)]
pub enum Hint {
    /// A text.
    Text,
    /// Another file, known by its first bytes.
    Other(OtherFile),
    /// None of these.
    Nothing,
}

/// Returns the first bytes, or all if there are fewer.
fn front_of(held: &[u8], len: usize) -> &[u8] {
    match held.split_at_checked(len) {
        Some((front, _)) => front,
        None => held,
    }
}

/// Returns whether the first bytes look like text, of which up to three may be a part of a character.
fn is_cut_text(held: &[u8], len: usize) -> bool {
    looks_like_text(front_of(held, len))
        || looks_like_text(front_of(held, len - 1))
        || looks_like_text(front_of(held, len - 2))
        || looks_like_text(front_of(held, len - 3))
}

/// Returns whether a file begins as text. If it is longer than its front, the last character of the front
/// may be cut off: one has at most four bytes.
fn begins_as_text(held: &[u8]) -> bool {
    if held.len() > FRONT_LEN {
        is_cut_text(held, FRONT_LEN)
    } else {
        looks_like_text(held)
    }
}

/// Returns what a file that has no trie looks like, by its first 64 KB and whether it has more.
pub fn hint_of(held: &[u8]) -> Hint {
    match other_file(front_of(held, FRONT_LEN)) {
        Some(other) => Hint::Other(other),
        None => {
            if begins_as_text(held) {
                Hint::Text
            } else {
                Hint::Nothing
            }
        }
    }
}

/// Returns whether a front that shows this reason shows it whatever follows. A number that may be that of
/// an index shows nothing if one is taken.
fn is_settled(why: &OpenError, takes_index: bool) -> bool {
    match why {
        OpenError::BadTag(_) | OpenError::Damaged(SealError::UnknownVersion(_)) => true,
        OpenError::Damaged(SealError::UnknownKind(number)) => {
            !takes_index || !is_index_number(*number)
        }
        OpenError::Damaged(
            SealError::NoMagic | SealError::CutShort | SealError::TooLong | SealError::Checksum,
        )
        | OpenError::NotWellFormed(_, _)
        | OpenError::OutOfMemory => false,
    }
}

/// Returns why a file that begins so has no trie, whatever follows; nor has it an index, if one is taken.
/// `None` if these bytes do not show it.
fn refusal_of_front(named: Option<TrieKind>, takes_index: bool, front: &[u8]) -> Option<OpenError> {
    let why = match open_unchecked(named, front) {
        Ok(_) => return None,
        Err(why) => why,
    };
    if is_settled(&why, takes_index) {
        return Some(why);
    }
    None
}

/// Returns why a large file has no trie, nor an index if one is taken, and what it looks like, if its first
/// bytes show it: only they are read then. `None` if all of it is to be read, also after a fault.
pub fn refused_by_front<F: OpenFile>(
    file: TrieFile<'_>,
    takes_index: bool,
    opened: &Opened<F>,
) -> Option<(OpenError, Hint)> {
    let Opened::File(open) = opened else {
        return None;
    };
    let mut front = [0; FRONT_LEN + 1];
    match open.read_part(0, &mut front) {
        Ok(()) => {}
        Err(_) => return None,
    }
    let why = refusal_of_front(file.bare, takes_index, &front)?;
    let hint = hint_of(&front);
    Some((why, hint))
}
