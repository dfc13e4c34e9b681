// Made from crates/zerotrie_words/src/misuse.rt by rust/make: edit that.
//! Why the words of a command line are no command.

use crate::zerotrie_search::{SearchBy, WordError};

/// Why the words of a command line are no command.
#[derive(Clone, Copy, Debug, PartialEq, Eq)]
pub enum Misuse {
    /// No command is named.
    NoCommand,
    /// An option has a word that it does not take.
    UnknownWord,
    /// An option of printed pairs is given where they are only counted.
    CountWithForm,
    /// `--raw` is given for another format than tsv.
    RawIsTsv,
    /// A search has no condition.
    NothingSought,
    /// A search has several words.
    TooMuchSought,
    /// The word of a search is none of its sort.
    Word(SearchBy, WordError),
    /// `--edits` is given without `--fuzzy`.
    IdleEdits,
    /// `--no-transpose` is given without `--fuzzy`.
    IdleSwaps,
    /// `--beginnings` is given without `--fuzzy`.
    IdleBeginnings,
    /// `--bytes` is given without a word that it is of.
    IdleBytes,
    /// `--distance` is given without `--fuzzy`.
    IdleDistance,
    /// A range ends below a key and at one.
    TwoEnds,
    /// `--distance` is given with another format, or with `--count`.
    DistanceForm,
    /// `--eol` is given for JSON.
    EndOfJson,
    /// `--header` is given for a format without columns.
    HeaderIsOfColumns,
    /// Only one of `--key` and `--value` is given.
    OneName,
    /// `--key` and `--value` are given for a format without columns and members.
    NamesAreOfColumns,
    /// `--tagged` and `--bare` are both given.
    TaggedAndBare,
    /// `--index` is given with `--tagged` or `--bare`.
    IndexExcludes,
    /// `--index` is given with `--kind`.
    IndexHasNoKind,
    /// `--summary` and `--quiet` are both given.
    SummaryAndQuiet,
    /// No keys, texts or values are given.
    NoKeys,
    /// A hyphen is among other keys, texts or values.
    HyphenAmongKeys,
    /// The word of `--at` is not one byte.
    NoBorder,
    /// `--top` and `--limit` are both given.
    TopAndLimit,
    /// `--limit` is given for a dump.
    LimitOfDump,
    /// `--alone` is given for another language than C.
    AloneIsC,
    /// A name is no name of a language.
    BadName,
    /// A name could be one of zerotrie.h.
    NameOfHeader,
    /// A name is a keyword of the language.
    NameIsKeyword,
    /// An argument is not UTF-8.
    NotUtf8,
    /// What is made would go to a terminal.
    OutputIsTerminal,
    /// A trie would come from a terminal.
    InputIsTerminal,
}

/// Returns the message for a word that is none of its sort.
fn word_text(by: SearchBy, error: WordError) -> &'static str {
    match (by, error) {
        (SearchBy::Glob | SearchBy::GlobChars, WordError::Malformed) => {
            "--glob and --not ask for a pattern: a class or braces lack their end, a class its letters, braces their beginning, braces are inside braces, a range ends before it begins, or a backslash escapes nothing"
        }
        (SearchBy::Glob | SearchBy::GlobChars, _) => {
            "--glob and --not ask for a pattern of at most 63 parts"
        }
        (SearchBy::Swaps(_) | SearchBy::SwapsChars(_), WordError::TooManyEdits) => {
            "--fuzzy allows at most 7 edits, and 254 with --no-transpose"
        }
        (_, WordError::TooManyEdits) => "--fuzzy --no-transpose allows at most 254 edits",
        (SearchBy::SwapsChars(_) | SearchBy::FuzzyChars(_), _) => {
            "--fuzzy asks for at most 63 characters"
        }
        (SearchBy::Swaps(_) | SearchBy::Fuzzy(_) | SearchBy::Prefix | SearchBy::Subsequence, _) => {
            "--fuzzy --bytes asks for at most 63 bytes"
        }
    }
}

impl Misuse {
    /// Returns the message.
    pub fn text(self) -> &'static str {
        match self {
            Misuse::NoCommand => "give a command, or --help",
            Misuse::UnknownWord => "an option has a word that it does not take",
            Misuse::CountWithForm => "--count prints no pairs: leave out --format and --raw",
            Misuse::RawIsTsv => "--raw is for tsv",
            Misuse::NothingSought =>
                "give --glob, --fuzzy, --subsequence, --not, --prefix, --from, --below or --to",
            Misuse::TooMuchSought => "give only one of --glob, --fuzzy and --subsequence",
            Misuse::Word(by, error) => word_text(by, error),
            Misuse::IdleEdits => "--edits is for --fuzzy",
            Misuse::IdleSwaps => "--no-transpose is for --fuzzy",
            Misuse::IdleBeginnings => "--beginnings is for --fuzzy",
            Misuse::IdleBytes => "--bytes is for --glob, --not and --fuzzy",
            Misuse::TwoEnds => "give only one of --below and --to",
            Misuse::IdleDistance => "--distance is for --fuzzy",
            Misuse::DistanceForm => {
                "--distance prints tsv: leave out --count, --format and --raw"
            }
            Misuse::EndOfJson => "--eol is for lines and records: leave it out for json and jsonl",
            Misuse::HeaderIsOfColumns => "--header is for tsv and csv",
            Misuse::OneName => "--key and --value go together",
            Misuse::NamesAreOfColumns => "--key and --value are for tsv, csv and jsonl",
            Misuse::TaggedAndBare => "--tagged and --bare exclude each other",
            Misuse::IndexExcludes => "--index excludes --tagged and --bare",
            Misuse::IndexHasNoKind => "an index has no kind: leave out --kind or --index",
            Misuse::SummaryAndQuiet => "--summary and --quiet exclude each other",
            Misuse::NoKeys => "give keys, texts or values, or - to read them from standard input",
            Misuse::HyphenAmongKeys =>
                "- reads standard input only if no other key, text or value is given; the key - is \\x2d with --escaped",
            Misuse::NoBorder => "--at asks for one byte",
            Misuse::TopAndLimit => "--top and --limit exclude each other",
            Misuse::LimitOfDump => "--limit is for inspect dot",
            Misuse::AloneIsC => "--alone is for --lang c",
            Misuse::BadName => "--name asks for ASCII letters, digits and _, and no digit in front",
            Misuse::NameOfHeader => "--name asks for no name that begins with zerotrie",
            Misuse::NameIsKeyword => "--name asks for no keyword of the language",
            Misuse::NotUtf8 =>
                "the arguments are not UTF-8; give keys of other bytes as lines of standard input by -, and a file of such a name as - with <",
            Misuse::OutputIsTerminal =>
                "standard output is a terminal: name a file by -o, or redirect the output",
            Misuse::InputIsTerminal =>
                "standard input is a terminal: name a file, or redirect the input",
        }
    }
}
