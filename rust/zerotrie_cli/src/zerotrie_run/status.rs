// Made from crates/zerotrie_run/src/status.rt by rust/make: edit that.
//! How a run ends.

use crate::zerotrie_making::MakeError;

/// How a run ends.
#[derive(Clone, Copy, PartialEq, Eq, Debug)]
pub enum Status {
    /// All was done, and all was found.
    Done,
    /// A key is not there, no pair is listed, a text begins with no key, or a pair of one file is not in the
    /// other.
    Absent,
    /// A build of the pairs is refused.
    Refused,
    /// The file to make is there already, and is not to be replaced.
    Taken,
    /// The words are no command, or standard input is to be both the file and the keys.
    BadUsage,
    /// A file has no trie, or the input of a build is no pairs.
    BadInput,
    /// The keys are to be lines of standard input, which is another file.
    BadKeys,
    /// A file or standard input can't be read.
    Unread,
    /// A file or output can't be written.
    Unwritten,
    /// It is out of memory.
    OutOfMemory,
    /// Whoever reads the output has closed it.
    Closed,
}

impl Status {
    /// Returns the number that the program ends with.
    pub fn number(self) -> u8 {
        match self {
            Status::Done => 0,
            Status::Absent | Status::Refused | Status::Taken => 1,
            Status::BadUsage | Status::BadInput | Status::BadKeys => 2,
            Status::Unread | Status::Unwritten | Status::OutOfMemory => 3,
            Status::Closed => 4,
        }
    }

    /// Returns how a run ends if its input makes no file. `None` if it is out of memory.
    pub fn of_refusal(error: &MakeError) -> Option<Self> {
        match error {
            MakeError::NotText(_)
            | MakeError::Line(_, _)
            | MakeError::NotJson(_, _)
            | MakeError::NotPairs
            | MakeError::NotPair(_) => Some(Status::BadInput),
            MakeError::Keys(_)
            | MakeError::SumTooLarge(_)
            | MakeError::Refused(_)
            | MakeError::IndexRefused(_) => Some(Status::Refused),
            MakeError::OutOfMemory => None,
        }
    }
}
