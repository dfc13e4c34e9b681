// Made from crates/zerotrie_run/src/making.rt by rust/make: edit that.
//! A file that is made of what is read: of pairs, or of the tries of others.

use crate::rstd::prelude::*;
use crate::zerotrie_run::combine::combine;
use crate::zerotrie_run::command::{Check, Place, Summary, TrieFile};
use crate::zerotrie_run::front::{Hint, refused_by_front};
use crate::zerotrie_run::messages::build::{made_lines, tell_removed};
use crate::zerotrie_run::messages::line::tell;
use crate::zerotrie_run::place::{open_place, read_opened, write_place};
use crate::zerotrie_run::status::Status;
use crate::rstd::alloc::{AllocError, AllocFailed, Global};
use crate::rstd::io;
use crate::rstd::io::{BufWriter, Read, Write};
use crate::zerotrie_files::{Disk, Noted, Store};
use crate::zerotrie_making::{Combination, CombinationError, Made, MakeError, Plan, make};
use crate::zerotrie_queries::OpenError;

/// How a file is made of what is read.
#[derive(Clone, Copy, Debug)]
pub enum Recipe<'a> {
    /// Of the pairs of one input.
    Pairs(Plan<'a>),
    /// Of the tries of files.
    Tries(Combination),
}

/// A file to make: of what, how, and where.
#[derive(Clone, Copy, Debug)]
pub struct Making<'s, 'a> {
    pub from: &'s [Place<'a>],
    pub recipe: Recipe<'a>,
    pub to: Place<'a>,
    /// Whether a file that is there already is left as it is.
    pub no_clobber: bool,
    /// When it is reported at the end what was made.
    pub summary: Summary,
}

/// Why no file is made.
#[derive(Debug)]
pub enum MakingError<'a> {
    /// There is a file already, which is to be left as it is.
    Taken,
    /// It can't be found out whether there is a file.
    Unfound(io::Error),
    /// This place can't be read.
    Unread(Place<'a>, io::Error),
    /// This file has no trie, and looks so.
    NoTrie(Place<'a>, OpenError, Hint),
    /// What was read makes no file.
    NotMade(CombinationError),
    /// The file can't be written.
    Unwritten(io::Error),
}

impl<'a> MakingError<'a> {
    /// Returns how the run ends if the command is refused. `None` if something failed.
    pub fn refusal(&self) -> Option<Status> {
        match self {
            MakingError::Taken => Some(Status::Taken),
            MakingError::NoTrie(_, why, _) => match why {
                OpenError::BadTag(_) | OpenError::Damaged(_) | OpenError::NotWellFormed(_, _) => {
                    Some(Status::BadInput)
                }
                OpenError::OutOfMemory => None,
            },
            MakingError::NotMade(CombinationError::NoValue(_, _)) => Some(Status::Refused),
            MakingError::NotMade(CombinationError::NotMade(error)) => Status::of_refusal(error),
            MakingError::Unfound(_) | MakingError::Unread(_, _) | MakingError::Unwritten(_) => None,
        }
    }
}

impl<'a> From<CombinationError> for MakingError<'a> {
    fn from(why: CombinationError) -> Self {
        MakingError::NotMade(why)
    }
}

impl<'a> From<MakeError> for MakingError<'a> {
    fn from(why: MakeError) -> Self {
        MakingError::NotMade(CombinationError::NotMade(why))
    }
}

impl<'a> From<AllocError> for MakingError<'a> {
    fn from(_: AllocError) -> Self {
        MakingError::NotMade(CombinationError::NotMade(MakeError::OutOfMemory))
    }
}

impl<'a, T> From<AllocFailed<T>> for MakingError<'a> {
    fn from(_: AllocFailed<T>) -> Self {
        MakingError::NotMade(CombinationError::NotMade(MakeError::OutOfMemory))
    }
}

/// Refuses to make a file that is there already, if it is to be left as it is.
fn refuse_existing<'a, D: Disk>(
    making: Making<'_, 'a>,
    files: &mut Store<D>,
) -> Result<(), MakingError<'a>> {
    match making.to {
        Place::File(path) if making.no_clobber => match files.has(path) {
            Ok(true) => Err(MakingError::Taken),
            Ok(false) => Ok(()),
            Err(error) => Err(MakingError::Unfound(error)),
        },
        Place::File(_) | Place::Stream => Ok(()),
    }
}

/// Returns how a file is read whose trie is combined with others: all its bytes are tested.
pub fn file_of(place: Place<'_>) -> TrieFile<'_> {
    TrieFile {
        place,
        bare: None,
        check: Check::Full,
    }
}

/// Reads all bytes of a place, unless they are for a combination and the first ones show no trie.
fn read_one<'a, D: Disk, R: Read>(
    alloc: Global,
    recipe: Recipe<'a>,
    place: Place<'a>,
    files: &mut Store<D>,
    input: &mut Noted<R>,
) -> Result<Vec<u8>, MakingError<'a>> {
    let opened = match open_place(place, files) {
        Ok(opened) => opened,
        Err(error) => return Err(MakingError::Unread(place, error)),
    };
    if let Recipe::Tries(_) = recipe {
        if let Some((why, hint)) = refused_by_front(file_of(place), false, &opened) {
            return Err(MakingError::NoTrie(place, why, hint));
        }
    }
    match read_opened(alloc, opened, files, input) {
        Ok(bytes) => Ok(bytes),
        Err(error) => Err(MakingError::Unread(place, error)),
    }
}

/// Reads all places, of which at most one is standard input, up to the first that is refused.
fn read_all<'a, D: Disk, R: Read>(
    alloc: Global,
    making: Making<'_, 'a>,
    files: &mut Store<D>,
    input: &mut Noted<R>,
) -> Result<Vec<Vec<u8>>, MakingError<'a>> {
    let places = making.from;
    let mut held = Vec::with_capacity(alloc, places.len())?;
    for number in 0..places.len() {
        match read_one(alloc, making.recipe, places[number], files, input) {
            Ok(bytes) => held.push(bytes)?,
            Err(error) => return Err(error),
        }
    }
    Ok(held)
}

/// Makes the file of what was read of the places, and returns whether no kind is named for it and their
/// tries have several.
fn made_of<'a>(
    alloc: Global,
    making: Making<'_, 'a>,
    held: Vec<Vec<u8>>,
) -> Result<(Made, bool), MakingError<'a>> {
    match making.recipe {
        Recipe::Pairs(plan) => {
            let mut held = held;
            Ok((make(alloc, plan, held.swap_remove(0))?, false))
        }
        Recipe::Tries(combination) => combine(alloc, combination, making.from, held.as_slice()),
    }
}

/// Makes a file of what it reads, and writes it to its place, unless there is a file already that is to be
/// left as it is. It reports that at the end, as its summary says, and then how many files of killed
/// builds were removed.
pub fn make_file<'a, D: Disk, R: Read, W: Write, M: Write>(
    alloc: Global,
    making: Making<'_, 'a>,
    files: &mut Store<D>,
    input: &mut Noted<R>,
    output: &mut Noted<BufWriter<W>>,
    messages: &mut Noted<M>,
) -> Result<(), MakingError<'a>> {
    refuse_existing(making, files)?;
    let held = read_all(alloc, making, files, input)?;
    let (made, several) = made_of(alloc, making, held)?;
    let lines = made_lines(alloc, making, several, &made)?;
    match write_place(alloc, making.to, made.file.as_slice(), files, output) {
        Ok(removed) => {
            tell(messages, lines.as_slice());
            tell_removed(alloc, messages, making.summary, making.to, removed);
            Ok(())
        }
        Err(error) => Err(MakingError::Unwritten(error)),
    }
}
