// Made from crates/zerotrie_words/src/task.rt by rust/make: edit that.
//! What commands do, by their names.

use crate::rstd::clap::ArgMatches;
use crate::zerotrie_sets::Selection;

/// What a trie is asked, each by the command of its name.
#[derive(Clone, Copy)]
pub enum Topic {
    Get,
    Longest,
    Reverse,
    List,
    Search,
    Verify,
    Stats,
    Inspect,
    Code,
}

/// What a command does.
#[derive(Clone, Copy)]
pub enum Task {
    /// It makes a trie.
    Build,
    /// It asks a trie.
    Ask(Topic),
    /// It compares two tries.
    Diff,
    /// It makes a trie of others.
    Combine(Selection),
}

impl Task {
    /// Returns what the command with this name does, or `None` if no command has it.
    fn named(name: &str) -> Option<Self> {
        match name {
            "build" => Some(Task::Build),
            "get" => Some(Task::Ask(Topic::Get)),
            "longest" => Some(Task::Ask(Topic::Longest)),
            "reverse" => Some(Task::Ask(Topic::Reverse)),
            "list" => Some(Task::Ask(Topic::List)),
            "search" => Some(Task::Ask(Topic::Search)),
            "diff" => Some(Task::Diff),
            "verify" => Some(Task::Ask(Topic::Verify)),
            "stats" => Some(Task::Ask(Topic::Stats)),
            "inspect" => Some(Task::Ask(Topic::Inspect)),
            "code" => Some(Task::Ask(Topic::Code)),
            "union" => Some(Task::Combine(Selection::Union)),
            "intersect" => Some(Task::Combine(Selection::Intersection)),
            "minus" => Some(Task::Combine(Selection::Difference)),
            _ => None,
        }
    }
}

/// Takes the command that clap found, as what it does and its own words. `None` if there is none,
/// which clap refuses.
pub fn task_in<'a>(matches: &mut ArgMatches<'a>) -> Option<(Task, ArgMatches<'a>)> {
    let (name, words) = matches.remove_subcommand()?;
    match Task::named(name) {
        Some(task) => Some((task, words)),
        None => None,
    }
}
