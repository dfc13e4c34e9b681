// Made from crates/zerotrie_words/src/build.rt by rust/make: edit that.
//! The build that the options ask for.

use crate::zerotrie_words::input::Input;
use crate::zerotrie_words::misuse::Misuse;
use crate::zerotrie_words::names::{kind_of, place_of, source_of};
use crate::zerotrie_words::options::{BuildOptions, MakeOptions};
use crate::zerotrie_core::TrieKind;
use crate::zerotrie_lines::{Format, Header, LineEnd, Names, TextForm};
use crate::zerotrie_making::{Duplicates, FileForm, FilePlan, Plan, ReadPlan, Source};
use crate::zerotrie_run::{Build, Place, Summary};

/// The members of a pair in a line of JSON, if none are named.
const MEMBERS: Names<'static> = Names {
    key: "key",
    value: "value",
};

/// Returns the line end with this name, or `None` if no line end has it.
fn end_named(name: &str) -> Option<LineEnd> {
    match name {
        "crlf" => Some(LineEnd::CrLf),
        "lf" => Some(LineEnd::Lf),
        _ => None,
    }
}

/// Returns the choice with this name, or `None` if no choice has it.
fn duplicates_named(name: &str) -> Option<Duplicates> {
    match name {
        "refuse" => Some(Duplicates::Refuse),
        "first" => Some(Duplicates::First),
        "last" => Some(Duplicates::Last),
        "sum" => Some(Duplicates::Sum),
        "min" => Some(Duplicates::Min),
        "max" => Some(Duplicates::Max),
        _ => None,
    }
}

impl<'a> MakeOptions<'a> {
    /// Returns what the file has: a trie with what is beside its bytes, or an index.
    fn form(&self) -> Result<FileForm, Misuse> {
        match (self.tagged, self.bare, self.index) {
            (false, false, false) => Ok(FileForm::Sealed),
            (true, false, false) => Ok(FileForm::Tagged),
            (false, true, false) => Ok(FileForm::Bare),
            (false, false, true) => Ok(FileForm::Index),
            (true, true, false) => Err(Misuse::TaggedAndBare),
            (true, _, true) | (false, true, true) => Err(Misuse::IndexExcludes),
        }
    }

    /// Returns what the file has, and the kind of its trie, if one is named.
    pub fn content(&self) -> Result<(Option<TrieKind>, FileForm), Misuse> {
        let kind = kind_of(self.kind)?;
        let form = self.form()?;
        match (form, kind) {
            (FileForm::Index, Some(_)) => Err(Misuse::IndexHasNoKind),
            (FileForm::Index, None) | (FileForm::Sealed | FileForm::Tagged | FileForm::Bare, _) => {
                Ok((kind, form))
            }
        }
    }

    /// Returns where the file goes. A path of standard output is that stream: what it leads to is not
    /// replaced.
    pub fn target(&self) -> Place<'a> {
        match self.output {
            Some("/dev/stdout" | "/dev/fd/1") => Place::Stream,
            _ => place_of(self.output),
        }
    }

    /// Returns when it is reported what was made: always if that is asked for or messages go to a
    /// terminal, never if the command is to be quiet, and else if there are no keys.
    pub fn told(&self, to_terminal: bool) -> Result<Summary, Misuse> {
        match (self.summary, self.quiet) {
            (false, false) if to_terminal => Ok(Summary::Always),
            (false, false) => Ok(Summary::IfEmpty),
            (true, false) => Ok(Summary::Always),
            (false, true) => Ok(Summary::Never),
            (true, true) => Err(Misuse::SummaryAndQuiet),
        }
    }
}

impl<'a> BuildOptions<'a> {
    /// Returns the format of the input: the one that is named, or by the ending of its path.
    fn format(&self) -> Result<Input, Misuse> {
        match self.format {
            Some(name) => Input::named(name).ok_or(Misuse::UnknownWord),
            None => Ok(Input::of_path(self.input.unwrap_or(""))),
        }
    }

    /// Returns what ends a line of an input of this format. JSON has no lines, and in a line of it a
    /// carriage return counts for nothing.
    fn end(&self, input: Input) -> Result<LineEnd, Misuse> {
        match (self.eol, input) {
            (None, _) => Ok(LineEnd::CrLf),
            (Some(_), Input::Json | Input::JsonLines) => Err(Misuse::EndOfJson),
            (Some(name), Input::Tsv | Input::Csv | Input::Lines) => {
                end_named(name).ok_or(Misuse::UnknownWord)
            }
        }
    }

    /// Returns the names of the columns or members of the pairs, if they are given.
    fn names(&self, input: Input) -> Result<Option<Names<'a>>, Misuse> {
        match (self.key, self.value, input) {
            (None, None, _) => Ok(None),
            (Some(_), None, _) | (None, Some(_), _) => Err(Misuse::OneName),
            (Some(key), Some(value), Input::Tsv | Input::Csv | Input::JsonLines) => {
                Ok(Some(Names { key, value }))
            }
            (Some(_), Some(_), Input::Lines | Input::Json) => Err(Misuse::NamesAreOfColumns),
        }
    }

    /// Returns whether a header is in front of an input of this format. Named columns have one.
    fn header(&self, input: Input, names: Option<Names<'a>>) -> Result<Header<'a>, Misuse> {
        match (input, self.header, names) {
            (Input::Tsv | Input::Csv, _, Some(names)) => Ok(Header::Named(names)),
            (Input::Tsv | Input::Csv, true, None) => Ok(Header::Present),
            (_, false, _) => Ok(Header::Absent),
            (Input::Lines | Input::Json | Input::JsonLines, true, _) => {
                Err(Misuse::HeaderIsOfColumns)
            }
        }
    }

    /// Returns how the input is pairs. Only `tsv` is raw.
    fn source(&self) -> Result<Source<'a>, Misuse> {
        let input = self.format()?;
        let end = self.end(input)?;
        let names = self.names(input)?;
        let header = self.header(input, names)?;
        let format = match (input, self.raw) {
            (Input::Tsv, true) => Format::TsvRaw,
            (Input::Tsv, false) => Format::Tsv,
            (Input::Csv, false) => Format::Csv,
            (Input::Lines, false) => Format::Lines,
            (Input::Json, false) => return Ok(Source::Json),
            (Input::JsonLines, false) => return Ok(Source::JsonLines(names.unwrap_or(MEMBERS))),
            (Input::Csv | Input::Lines | Input::Json | Input::JsonLines, true) => {
                return Err(Misuse::RawIsTsv);
            }
        };
        Ok(Source::Text(TextForm {
            format,
            end,
            header,
        }))
    }

    /// Returns what becomes of a key that comes again.
    fn duplicates(&self) -> Result<Duplicates, Misuse> {
        match self.duplicates {
            Some(name) => duplicates_named(name).ok_or(Misuse::UnknownWord),
            None => Err(Misuse::UnknownWord),
        }
    }

    /// Returns how the file is to be made.
    fn plan(&self) -> Result<Plan<'a>, Misuse> {
        let (kind, form) = self.make.content()?;
        Ok(Plan {
            read: ReadPlan {
                source: self.source()?,
                lower_case: self.lower_case,
                duplicates: self.duplicates()?,
            },
            file: FilePlan {
                kind,
                sorted: self.sorted,
                form,
            },
        })
    }

    /// Returns the build that is asked for. What it made is told always if messages go to a terminal.
    pub fn build(&self, to_terminal: bool) -> Result<Build<'a>, Misuse> {
        Ok(Build {
            from: source_of(self.input),
            to: self.make.target(),
            plan: self.plan()?,
            no_clobber: self.make.no_clobber,
            summary: self.make.told(to_terminal)?,
        })
    }
}
