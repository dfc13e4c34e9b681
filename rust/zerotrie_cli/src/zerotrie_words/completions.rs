// Made from crates/zerotrie_words/src/completions.rt by rust/make: edit that.
//! Completions of the command line for shells, by the rows of commands.

use crate::rstd::prelude::*;

mod bash;
mod fish;
mod zsh;

use crate::zerotrie_words::arguments::{Argument, Rows};
use crate::zerotrie_words::completions::bash::bash;
use crate::zerotrie_words::completions::fish::fish;
use crate::zerotrie_words::completions::zsh::zsh;
use crate::zerotrie_words::shown::{Listed, NO_WORDS, Shown};
use crate::rstd::alloc::{AllocError, Global};

/// The names of the shells, in the order of the help.
pub const SHELLS: &[&str] = &["bash", "zsh", "fish"];

/// The names of words that are files.
const FILES: &[&str] = &["FILE", "IN", "OUT", "OLD", "NEW"];

impl Shown {
    /// Returns whether its word is a file.
    fn is_file(&self) -> bool {
        FILES.contains(&self.value.unwrap_or(""))
    }

    /// Returns what a shell offers for its word: words of a list with these texts round them, files, or
    /// nothing, since any word will do. A flag has no word.
    fn offer(&self, list: [&'static str; 3], file: &'static str, any: &'static str) -> Listed {
        match self.value {
            Some(_) if !self.words.is_empty() => Listed(list, self.words),
            Some(_) if self.is_file() => Listed(["", "", file], NO_WORDS),
            Some(_) => Listed(["", "", any], NO_WORDS),
            None => Listed(["", "", ""], NO_WORDS),
        }
    }
}

impl Argument {
    /// Returns the beginning of its help, as a shell has room for a few words.
    fn short_help(&self) -> &'static str {
        let (front, _) = self.help.split_once("; ").unwrap_or((self.help, ""));
        let (front, _) = front.split_once(": ").unwrap_or((front, ""));
        front
    }
}

/// Returns the script that completes the command line in the shell of this name. `None` if no shell
/// has it.
pub fn script_for(
    alloc: Global,
    shell: &str,
    rows: Rows<'_>,
) -> Result<Option<String>, AllocError> {
    let mut names = crate::rstd::string::new(alloc);
    for row in rows.iter().copied().flatten() {
        write!(names, "{} ", row.name)?;
    }
    names.try_push_str("help")?;
    match shell {
        "bash" => Ok(Some(bash(alloc, rows, names.as_str())?)),
        "zsh" => Ok(Some(zsh(alloc, rows, names.as_str())?)),
        "fish" => Ok(Some(fish(alloc, rows, names.as_str())?)),
        _ => Ok(None),
    }
}
