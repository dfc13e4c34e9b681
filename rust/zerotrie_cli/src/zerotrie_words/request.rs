// Made from crates/zerotrie_words/src/request.rt by rust/make: edit that.
//! The words of a command line as a command.

use crate::rstd::prelude::*;
use crate::zerotrie_words::arguments::program;
use crate::zerotrie_words::combine::places_in;
use crate::zerotrie_words::completions::script_for;
use crate::zerotrie_words::diff::diff_in;
use crate::zerotrie_words::keys::words_in;
use crate::zerotrie_words::manual::manual;
use crate::zerotrie_words::misuse::Misuse;
use crate::zerotrie_words::options::{BuildOptions, MakeOptions};
use crate::zerotrie_words::question::{ask_in, file_count};
use crate::zerotrie_words::reply::{Reply, reply_to};
use crate::zerotrie_words::table::commands;
use crate::zerotrie_words::task::{Task, Topic, task_in};
use crate::rstd::clap::ArgMatches;
use crate::rstd::alloc::{AllocError, Global};
use crate::zerotrie_run::{Build, Command, Place};

/// The words of a command line that name a command.
pub struct Request<'a> {
    task: Task,
    matches: ArgMatches<'a>,
    /// The words that are keys or texts.
    keys: Option<Vec<&'a [u8]>>,
    /// The places of the tries that are combined.
    places: Vec<Place<'a>>,
}

/// Returns what clap finds in words, or what is said in place of it.
fn matches_in<'a>(alloc: Global, words: &'a [String]) -> Result<ArgMatches<'a>, Reply<'a>> {
    let rows = commands();
    let known = program(alloc, &rows)?;
    match known.try_get_matches_from(words) {
        Ok(matches) => Ok(matches),
        Err(error) => Err(reply_to(alloc, &error, &rows, words)),
    }
}

/// Returns the man page, or the completions for a shell, if the words ask for these. `None` if they
/// ask for something else.
fn page_in(alloc: Global, matches: &ArgMatches<'_>) -> Result<Option<String>, AllocError> {
    match matches.subcommand() {
        Some(("completions", words)) => {
            let shell = words.get_str("SHELL").unwrap_or("");
            script_for(alloc, shell, &commands())
        }
        Some(("man", _)) => Ok(Some(manual(alloc, &commands())?)),
        _ => Ok(None),
    }
}

/// Returns a build, unless it would replace its own input. Paths that lead to one file by links are
/// not seen here.
fn kept_apart<'a>(build: Build<'a>) -> Result<Build<'a>, Reply<'a>> {
    match (build.from, build.to) {
        (Place::File(from), Place::File(to)) if from == to => Err(Reply::OneFile(from, to)),
        _ => Ok(build),
    }
}

impl<'a> Request<'a> {
    /// Reads the words of a command line, of which the first is the name of the program. It is an
    /// error if they are wrong, if they ask for help, the version, the man page or completions, or
    /// if an allocation fails.
    pub fn read(alloc: Global, words: &'a [String]) -> Result<Self, Reply<'a>> {
        let mut matches = matches_in(alloc, words)?;
        if let Some(page) = page_in(alloc, &matches)? {
            return Err(Reply::Help(page));
        }
        let Some((task, matches)) = task_in(&mut matches) else {
            return Err(Reply::Refusal(Misuse::NoCommand));
        };
        let keys = match task {
            Task::Ask(topic) => words_in(alloc, &matches, topic)?,
            Task::Build | Task::Diff | Task::Combine(_) => None,
        };
        let places = places_in(alloc, &matches, task)?;
        Ok(Request {
            task,
            matches,
            keys,
            places,
        })
    }

    /// Returns whether nothing is to be printed of what the command finds, so that its status alone
    /// says it.
    pub fn is_quiet(&self) -> bool {
        match self.task {
            Task::Diff | Task::Ask(Topic::List | Topic::Search) => self.matches.get_flag("quiet"),
            Task::Build
            | Task::Ask(
                Topic::Get
                | Topic::Longest
                | Topic::Reverse
                | Topic::Verify
                | Topic::Stats
                | Topic::Inspect
                | Topic::Code,
            )
            | Task::Combine(_) => false,
        }
    }

    /// Returns how many files the command is for, one after the other.
    pub fn files(&self) -> usize {
        match self.task {
            Task::Ask(Topic::Verify | Topic::Stats) => file_count(&self.matches),
            Task::Build | Task::Ask(_) | Task::Diff | Task::Combine(_) => 1,
        }
    }

    /// Returns the command that the words ask for, for the file with this number. What is made is
    /// reported always if messages go to a terminal, but not if it is to be quiet. It is an error if an
    /// option has a wrong word, if options exclude each other, or if a build would replace its own
    /// input.
    pub fn command(&self, file: usize, to_terminal: bool) -> Result<Command<'_>, Reply<'a>> {
        match self.task {
            Task::Build => {
                let build = BuildOptions::of(&self.matches).build(to_terminal)?;
                Ok(Command::Build(kept_apart(build)?))
            }
            Task::Ask(topic) => Ok(ask_in(&self.matches, topic, file, &self.keys)?),
            Task::Diff => Ok(Command::Diff(diff_in(&self.matches)?)),
            Task::Combine(selection) => {
                let options = MakeOptions::of(&self.matches);
                let values = self.matches.get_str("values");
                let places = self.places.as_slice();
                Ok(Command::Combine(options.combination(values, selection, places, to_terminal)?))
            }
        }
    }
}
