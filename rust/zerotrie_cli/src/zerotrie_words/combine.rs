// Made from crates/zerotrie_words/src/combine.rt by rust/make: edit that.
//! The combination of tries that the command line asks for.

use crate::rstd::prelude::*;
use crate::zerotrie_words::misuse::Misuse;
use crate::zerotrie_words::names::source_of;
use crate::zerotrie_words::options::MakeOptions;
use crate::zerotrie_words::task::Task;
use crate::rstd::clap::ArgMatches;
use crate::rstd::alloc::{AllocError, Global};
use crate::zerotrie_making::Combination;
use crate::zerotrie_run::{Combine, Place};
use crate::zerotrie_sets::{Rule, Selection};

/// Returns the places that words name.
fn sources_of<'a>(alloc: Global, words: &[&'a str]) -> Result<Vec<Place<'a>>, AllocError> {
    let mut places = Vec::new(alloc);
    for word in words {
        places.push(source_of(Some(*word)))?;
    }
    Ok(places)
}

/// Returns the places of all files that are named.
fn sources_in<'a>(alloc: Global, matches: &ArgMatches<'a>) -> Result<Vec<Place<'a>>, AllocError> {
    match matches.get_strs("FILE") {
        Some(words) => sources_of(alloc, words),
        None => Ok(Vec::new(alloc)),
    }
}

/// Returns the places of the tries that a task combines.
pub fn places_in<'a>(
    alloc: Global,
    matches: &ArgMatches<'a>,
    task: Task,
) -> Result<Vec<Place<'a>>, AllocError> {
    match task {
        Task::Combine(_) => sources_in(alloc, matches),
        Task::Build | Task::Ask(_) | Task::Diff => Ok(Vec::new(alloc)),
    }
}

/// Returns the rule with this name, or `None` if no rule has it.
fn rule_named(name: &str) -> Option<Rule> {
    match name {
        "first" => Some(Rule::First),
        "last" => Some(Rule::Last),
        "sum" => Some(Rule::Sum),
        "min" => Some(Rule::Min),
        "max" => Some(Rule::Max),
        "equal" => Some(Rule::Equal),
        "refuse" => Some(Rule::Refuse),
        _ => None,
    }
}

/// Returns which value a key gets that several tries have. `minus` has no such key, and no word for it.
fn rule_of(values: Option<&str>) -> Result<Rule, Misuse> {
    match values {
        Some(name) => rule_named(name).ok_or(Misuse::UnknownWord),
        None => Ok(Rule::First),
    }
}

impl<'a> MakeOptions<'a> {
    /// Returns the combination that is asked for, of the tries in these places, with the word of its
    /// rule. What it made is told always if messages go to a terminal.
    pub fn combination<'w>(
        &self,
        values: Option<&str>,
        selection: Selection,
        places: &'w [Place<'a>],
        to_terminal: bool,
    ) -> Result<Combine<'w>, Misuse>
    where
        'a: 'w,
    {
        let (kind, form) = self.content()?;
        let rule = rule_of(values)?;
        Ok(Combine {
            from: places,
            to: self.target(),
            combination: Combination {
                selection,
                rule,
                kind,
                form,
            },
            no_clobber: self.no_clobber,
            summary: self.told(to_terminal)?,
        })
    }
}
