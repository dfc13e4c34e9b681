// Made from crates/zerotrie_run/src/error.rt by rust/make: edit that.
//! Why a command is not carried out to its end.

use crate::rstd::prelude::*;
use crate::zerotrie_run::ask::AskError;
use crate::zerotrie_run::command::{Build, Combine, Diff, Question, TrieFile};
use crate::zerotrie_run::diff::DiffError;
use crate::zerotrie_run::making::MakingError;
use crate::zerotrie_run::messages::ask::{ask_text, question_text};
use crate::zerotrie_run::messages::build::unmade_text;
use crate::zerotrie_run::messages::line::{source_name, target_name};
use crate::zerotrie_run::messages::pairs::PairUnit;
use crate::zerotrie_run::status::Status;
use crate::rstd::alloc::{AllocError, Global};

/// Why a command is not carried out to its end, and what it was to do.
#[derive(Debug)]
pub enum CommandError<'a> {
    /// No file is made of pairs.
    Build(Build<'a>, MakingError<'a>),
    /// The question has no answer.
    Ask(TrieFile<'a>, Question<'a>, AskError),
    /// The two files are not compared.
    Diff(Diff<'a>, DiffError<'a>),
    /// No file is made of the tries of others.
    Combine(Combine<'a>, MakingError<'a>),
}

impl<'a> CommandError<'a> {
    /// Returns how the run ends if the command is refused. `None` if something failed.
    pub fn refusal(&self) -> Option<Status> {
        match self {
            CommandError::Build(_, error) | CommandError::Combine(_, error) => error.refusal(),
            CommandError::Ask(_, _, error) => error.refusal(),
            CommandError::Diff(_, error) => error.error.refusal(),
        }
    }

    /// Returns the message that says why.
    pub fn text(&self, alloc: Global) -> Result<Vec<u8>, AllocError> {
        match self {
            CommandError::Build(build, error) => unmade_text(
                alloc,
                source_name(build.from),
                PairUnit::of(build.plan.read.source),
                target_name(build.to),
                error,
            ),
            CommandError::Ask(file, question, error) => {
                question_text(alloc, *file, *question, error)
            }
            CommandError::Diff(_, error) => ask_text(alloc, error.file, &error.error),
            // no file has the pairs that are taken, so a line on them is on the file that is made
            CommandError::Combine(combine, error) => {
                let to = target_name(combine.to);
                unmade_text(alloc, to, PairUnit::Pair, to, error)
            }
        }
    }
}
