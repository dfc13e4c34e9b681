// Made from crates/zerotrie_words/src/keys.rt by rust/make: edit that.
//! The keys, texts and values that the command line asks for.

use crate::rstd::prelude::*;
use crate::zerotrie_words::misuse::Misuse;
use crate::zerotrie_words::task::Topic;
use crate::rstd::clap::ArgMatches;
use crate::rstd::alloc::{AllocError, Global};
use crate::zerotrie_run::Keys;

/// Returns words as bytes.
fn bytes_of<'a>(alloc: Global, words: &[&'a str]) -> Result<Vec<&'a [u8]>, AllocError> {
    let mut keys = Vec::new(alloc);
    for word in words {
        keys.push(word.as_bytes())?;
    }
    Ok(keys)
}

/// Returns the keys, texts or values that are words of the command line, as bytes. It is `None` if there
/// are none.
pub fn words_in<'a>(
    alloc: Global,
    matches: &ArgMatches<'a>,
    topic: Topic,
) -> Result<Option<Vec<&'a [u8]>>, AllocError> {
    let given = match topic {
        Topic::Get => matches.get_strs("KEY"),
        Topic::Longest => matches.get_strs("TEXT"),
        Topic::Reverse => matches.get_strs("VALUE"),
        Topic::List | Topic::Search | Topic::Verify | Topic::Stats | Topic::Inspect | Topic::Code =>
            None,
    };
    match given {
        Some(words) => Ok(Some(bytes_of(alloc, words)?)),
        None => Ok(None),
    }
}

/// Returns whether the only word is a hyphen.
fn is_hyphen(words: &[&[u8]]) -> bool {
    match words.split_first() {
        Some((word, rest)) => rest.is_empty() && *word == b"-".as_slice(),
        None => false,
    }
}

/// Returns whether a word is a hyphen.
fn has_hyphen(words: &[&[u8]]) -> bool {
    for word in words {
        if *word == b"-".as_slice() {
            return true;
        }
    }
    false
}

/// Returns the keys that are asked for: words, or the lines of standard input if the only word is
/// `-`. It is an error if there are no words, or `-` is among others.
pub fn keys_of<'w, 'a: 'w>(words: &'w Option<Vec<&'a [u8]>>) -> Result<Keys<'w>, Misuse> {
    match words {
        Some(words) if is_hyphen(words.as_slice()) => Ok(Keys::Lines),
        Some(words) if has_hyphen(words.as_slice()) => Err(Misuse::HyphenAmongKeys),
        Some(words) => Ok(Keys::Words(words.as_slice())),
        None => Err(Misuse::NoKeys),
    }
}
