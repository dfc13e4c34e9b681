// Made from crates/zerotrie_words/src/options.rt by rust/make: edit that.
//! The options of commands, each read by its name once.

use crate::rstd::clap::ArgMatches;

/// The options of what lists pairs: which, in which order, and how.
#[derive(Clone, Copy)]
pub struct ListOptions<'a> {
    pub prefix: Option<&'a str>,
    pub from: Option<&'a str>,
    pub below: Option<&'a str>,
    pub to: Option<&'a str>,
    pub format: Option<&'a str>,
    pub raw: bool,
    pub top: Option<&'a str>,
    pub limit: Option<&'a str>,
    pub count: bool,
    pub quiet: bool,
}

/// The options of a search.
#[derive(Clone, Copy)]
pub struct SearchOptions<'a> {
    pub glob: Option<&'a str>,
    pub fuzzy: Option<&'a str>,
    pub subsequence: Option<&'a str>,
    pub not: Option<&'a str>,
    pub edits: Option<&'a str>,
    pub no_transpose: bool,
    pub bytes: bool,
    pub beginnings: bool,
    pub distance: bool,
    pub list: ListOptions<'a>,
}

/// The options of what makes a file: what it has, and what is told of it.
#[derive(Clone, Copy)]
pub struct MakeOptions<'a> {
    pub output: Option<&'a str>,
    pub no_clobber: bool,
    pub kind: Option<&'a str>,
    pub tagged: bool,
    pub bare: bool,
    pub index: bool,
    pub summary: bool,
    pub quiet: bool,
}

/// The options of a build.
#[derive(Clone, Copy)]
pub struct BuildOptions<'a> {
    pub input: Option<&'a str>,
    pub format: Option<&'a str>,
    pub raw: bool,
    pub header: bool,
    pub key: Option<&'a str>,
    pub value: Option<&'a str>,
    pub eol: Option<&'a str>,
    pub duplicates: Option<&'a str>,
    pub lower_case: bool,
    pub sorted: bool,
    pub make: MakeOptions<'a>,
}

/// The options of the code of a program.
#[derive(Clone, Copy)]
pub struct CodeOptions<'a> {
    pub lang: Option<&'a str>,
    pub name: Option<&'a str>,
    pub alone: bool,
}

impl<'a> ListOptions<'a> {
    /// Reads them.
    pub fn of(matches: &ArgMatches<'a>) -> Self {
        ListOptions {
            prefix: matches.get_str("prefix"),
            from: matches.get_str("from"),
            below: matches.get_str("below"),
            to: matches.get_str("to"),
            format: matches.get_str("format"),
            raw: matches.get_flag("raw"),
            top: matches.get_str("top"),
            limit: matches.get_str("limit"),
            count: matches.get_flag("count"),
            quiet: matches.get_flag("quiet"),
        }
    }
}

impl<'a> SearchOptions<'a> {
    /// Reads them.
    pub fn of(matches: &ArgMatches<'a>) -> Self {
        SearchOptions {
            glob: matches.get_str("glob"),
            fuzzy: matches.get_str("fuzzy"),
            subsequence: matches.get_str("subsequence"),
            not: matches.get_str("not"),
            edits: matches.get_str("edits"),
            no_transpose: matches.get_flag("no-transpose"),
            bytes: matches.get_flag("bytes"),
            beginnings: matches.get_flag("beginnings"),
            distance: matches.get_flag("distance"),
            list: ListOptions::of(matches),
        }
    }
}

impl<'a> MakeOptions<'a> {
    /// Reads them.
    pub fn of(matches: &ArgMatches<'a>) -> Self {
        MakeOptions {
            output: matches.get_str("output"),
            no_clobber: matches.get_flag("no-clobber"),
            kind: matches.get_str("kind"),
            tagged: matches.get_flag("tagged"),
            bare: matches.get_flag("bare"),
            index: matches.get_flag("index"),
            summary: matches.get_flag("summary"),
            quiet: matches.get_flag("quiet"),
        }
    }
}

impl<'a> BuildOptions<'a> {
    /// Reads them.
    pub fn of(matches: &ArgMatches<'a>) -> Self {
        BuildOptions {
            input: matches.get_str("IN"),
            format: matches.get_str("format"),
            raw: matches.get_flag("raw"),
            header: matches.get_flag("header"),
            key: matches.get_str("key"),
            value: matches.get_str("value"),
            eol: matches.get_str("eol"),
            duplicates: matches.get_str("duplicates"),
            lower_case: matches.get_flag("lower-case"),
            sorted: matches.get_flag("sorted"),
            make: MakeOptions::of(matches),
        }
    }
}

impl<'a> CodeOptions<'a> {
    /// Reads them.
    pub fn of(matches: &ArgMatches<'a>) -> Self {
        CodeOptions {
            lang: matches.get_str("lang"),
            name: matches.get_str("name"),
            alone: matches.get_flag("alone"),
        }
    }
}
