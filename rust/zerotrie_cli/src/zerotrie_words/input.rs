// Made from crates/zerotrie_words/src/input.rt by rust/make: edit that.
//! The formats of input, by name and by the endings of files.

/// The names of all formats, in the order of the help.
pub const INPUTS: &[&str] = &["tsv", "csv", "lines", "json", "jsonl"];

/// A format of input, and how keys are written in it.
#[derive(Clone, Copy, PartialEq, Eq, Debug)]
pub enum Input {
    Tsv,
    Csv,
    Lines,
    Json,
    JsonLines,
}

/// Returns whether a path ends so, in either case of ASCII letters.
fn ends_in(path: &str, ending: &str) -> bool {
    let start = path.len().saturating_sub(ending.len());
    let (_, last) = path.as_bytes().split_at(start);
    last.eq_ignore_ascii_case(ending.as_bytes())
}

impl Input {
    /// Returns the format with this name, or `None` if no format has it.
    pub fn named(name: &str) -> Option<Self> {
        match name {
            "tsv" => Some(Input::Tsv),
            "csv" => Some(Input::Csv),
            "lines" => Some(Input::Lines),
            "json" => Some(Input::Json),
            "jsonl" => Some(Input::JsonLines),
            _ => None,
        }
    }

    /// Returns the format of a file by the ending of its path, in either case of letters.
    pub fn of_path(path: &str) -> Self {
        if ends_in(path, ".csv") {
            Input::Csv
        } else if ends_in(path, ".json") {
            Input::Json
        } else if ends_in(path, ".jsonl") {
            Input::JsonLines
        } else if ends_in(path, ".ndjson") {
            Input::JsonLines
        } else if ends_in(path, ".txt") {
            Input::Lines
        } else {
            Input::Tsv
        }
    }
}
