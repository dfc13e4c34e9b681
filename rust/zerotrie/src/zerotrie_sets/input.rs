// Made from crates/zerotrie_sets/src/input.rt by rust/make: edit that.
//! One input of a merge: a stream, and what became of its current pair.

use crate::rstd::alloc::AllocError;
use crate::rstd::cmp::Ordering;
use crate::zerotrie_core::PairStream;

/// What became of the current pair of an input.
#[derive(Clone, Copy, Debug, PartialEq, Eq)]
pub enum Held {
    /// It was listed, or the first call of `advance` is still to come.
    Listed,
    /// It is still to be listed.
    Waiting,
    /// No pair is left.
    Over,
}

/// One input of a merge.
#[derive(Clone)]
pub struct Input<S> {
    pub stream: S,
    pub held: Held,
}

/// Returns what becomes of a current pair with the key `this`, once `key` was listed.
fn held_after(held: Held, this: &[u8], key: &[u8]) -> Held {
    match held {
        Held::Waiting => match this.cmp(key) {
            Ordering::Equal => Held::Listed,
            Ordering::Less | Ordering::Greater => Held::Waiting,
        },
        Held::Listed => Held::Listed,
        Held::Over => Held::Over,
    }
}

impl<S: PairStream> Input<S> {
    /// Returns an input of which nothing is listed.
    pub fn new(stream: S) -> Self {
        Input {
            stream,
            held: Held::Listed,
        }
    }

    /// Moves to the first pair that is still to be listed, and returns whether there is one.
    pub fn fetch(&mut self) -> Result<bool, AllocError> {
        if matches!(self.held, Held::Listed) {
            self.held = if self.stream.advance()? {
                Held::Waiting
            } else {
                Held::Over
            };
        }
        Ok(matches!(self.held, Held::Waiting))
    }

    /// Lists the pair that waits.
    pub fn list(&mut self) {
        self.held = Held::Listed;
    }

    /// Returns the value of the current pair, if it was listed.
    pub fn listed(&self) -> Option<usize> {
        match self.held {
            Held::Listed => Some(self.stream.value()),
            Held::Waiting | Held::Over => None,
        }
    }

    /// Lists the pair that waits, if it has this key.
    pub fn list_key(&mut self, key: &[u8]) {
        self.held = held_after(self.held, self.stream.key(), key);
    }

    /// Returns the key of the pair that waits, if one does.
    pub fn waiting(&self) -> Option<&[u8]> {
        match self.held {
            Held::Waiting => Some(self.stream.key()),
            Held::Listed | Held::Over => None,
        }
    }
}
