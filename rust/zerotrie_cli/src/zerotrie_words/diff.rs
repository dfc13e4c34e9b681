// Made from crates/zerotrie_words/src/diff.rt by rust/make: edit that.
//! The comparison that the command line asks for.

use crate::zerotrie_words::misuse::Misuse;
use crate::zerotrie_words::names::{kind_of, source_of};
use crate::rstd::clap::ArgMatches;
use crate::zerotrie_run::Diff;

/// Returns the comparison that is asked for. It is an error if an option has a wrong word.
pub fn diff_in<'a>(matches: &ArgMatches<'a>) -> Result<Diff<'a>, Misuse> {
    Ok(Diff {
        old: source_of(matches.get_str("OLD")),
        new: source_of(matches.get_str("NEW")),
        bare: kind_of(matches.get_str("bare-kind"))?,
    })
}
