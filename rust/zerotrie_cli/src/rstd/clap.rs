//! The command line, by the crate `clap`, whose matches live as long as the program.
use super::alloc::{AllocError, Allocator};
pub use ::clap::ArgAction;
use ::clap::error::{ContextKind, ContextValue, ErrorKind};
use std::collections::BTreeMap;
use std::ffi::OsStr;
use std::fmt;
use std::marker::PhantomData;
use std::ops::RangeFrom;

/// Methods of one argument, which are those of `clap`.
macro_rules! own {
    ($($name:ident: $given:ty;)*) => { $(
        pub fn $name(self, given: $given) -> Self {
            Self(self.0.$name(given), PhantomData)
        }
    )* };
}

pub struct Arg<'a>(::clap::Arg, PhantomData<&'a ()>);

impl<'a> Arg<'a> {
    own! {
        help: &'static str;
        long: &'static str;
        short: char;
        action: ArgAction;
        required: bool;
        default_value: &'static str;
        value_name: &'static str;
        num_args: RangeFrom<usize>;
    }

    pub fn new<A: Allocator>(_: A, name: &'static str) -> Self {
        Arg(::clap::Arg::new(name), PhantomData)
    }

    pub fn value_parser(self, parser: impl Into<builder::ValueParser>) -> Self {
        Arg(self.0.value_parser(parser.into().0), PhantomData)
    }
}

pub mod builder {
    use ::clap::builder as own;

    pub struct ValueParser(pub(super) own::ValueParser);

    impl ValueParser {
        pub fn unsigned(least: u64, most: u64) -> Self {
            ValueParser(own::RangedU64ValueParser::<u64>::new().range(least..=most).into())
        }
    }

    impl From<&'static [&'static str]> for ValueParser {
        fn from(words: &'static [&'static str]) -> Self {
            ValueParser(own::PossibleValuesParser::new(words.iter().copied()).into())
        }
    }
}

/// What the program is made from: a release names its commit.
const SOURCES: &str = match option_env!("ZEROTRIE_COMMIT") {
    Some(commit) => commit,
    None => "this version",
};

pub struct Command<'a>(::clap::Command, PhantomData<&'a ()>);

impl<'a> Command<'a> {
    own! {
        about: &'static str;
        after_help: &'static str;
        subcommand_required: bool;
        arg_required_else_help: bool;
    }

    pub fn new<A: Allocator>(_: A, name: &'static str) -> Self {
        Command(::clap::Command::new(name), PhantomData)
    }

    /// It says behind the version what this build is.
    pub fn version(self, text: &str) -> Self {
        let text = format!("{text}\nplain Rust, made from the proved sources of {SOURCES}").leak();
        Command(self.0.version(&*text), PhantomData)
    }

    pub fn bin_name(self, name: &'static str) -> Result<Self, AllocError> {
        Ok(Command(self.0.bin_name(name), PhantomData))
    }

    pub fn arg(self, arg: Arg<'a>) -> Result<Self, AllocError> {
        Ok(Command(self.0.arg(arg.0), PhantomData))
    }

    pub fn subcommand(self, other: Self) -> Result<Self, AllocError> {
        Ok(Command(self.0.subcommand(with_help(other.0)), PhantomData))
    }

    pub fn try_get_matches_from(self, words: &'a [String]) -> Result<ArgMatches<'a>, Error> {
        let version = ::clap::Arg::new("version").short('V').long("version").action(ArgAction::Version).help("Print version");
        let found = with_help(self.0).disable_version_flag(true).arg(version).try_get_matches_from(words);
        found.map(|matches| ArgMatches::of(Box::leak(Box::new(matches)))).map_err(Error)
    }
}

/// The words of help for the option depend on the version of `clap`.
fn with_help(command: ::clap::Command) -> ::clap::Command {
    let help = ::clap::Arg::new("help").short('h').long("help").action(ArgAction::Help).help("Print help");
    command.disable_help_flag(true).arg(help)
}

/// Why there are no matches.
pub struct Error(::clap::Error);

pub mod error {
    pub enum ErrorKind {
        OutOfMemory,
        DisplayHelp,
        DisplayVersion,
        Other,
    }
}

impl Error {
    pub fn kind(&self) -> error::ErrorKind {
        match self.0.kind() {
            ErrorKind::DisplayHelp => error::ErrorKind::DisplayHelp,
            ErrorKind::DisplayVersion => error::ErrorKind::DisplayVersion,
            _ => error::ErrorKind::Other,
        }
    }
}

impl fmt::Display for Error {
    fn fmt(&self, f: &mut fmt::Formatter<'_>) -> fmt::Result {
        let Some(message) = self.message() else {
            return write!(f, "{}", self.0.render());
        };
        write!(f, "error: {message}\n\n")?;
        for tip in self.tips() {
            writeln!(f, "  tip: {tip}")?;
        }
        write!(f, "\n{}\n\n", self.of(ContextKind::Usage))
    }
}

/// Errors have one form, that of the proved program, as each version of `clap` has its own.
impl Error {
    fn of(&self, kind: ContextKind) -> String {
        self.0.get(kind).map(ContextValue::to_string).unwrap_or_default()
    }

    fn list_of(&self, kind: ContextKind) -> &[String] {
        if let Some(ContextValue::Strings(words)) = self.0.get(kind) { words } else { &[] }
    }

    /// Returns nothing if the words ask for help or the version.
    fn message(&self) -> Option<String> {
        let (arg, name, value) =
            (self.of(ContextKind::InvalidArg), self.of(ContextKind::InvalidSubcommand), self.of(ContextKind::InvalidValue));
        Some(match self.0.kind() {
            ErrorKind::ArgumentConflict if self.of(ContextKind::PriorArg) == arg => {
                format!("the argument '{arg}' cannot be used multiple times")
            }
            ErrorKind::InvalidValue => {
                let words = in_brackets("possible values", self.list_of(ContextKind::ValidValue));
                if value.is_empty() {
                    format!("a value is required for '{arg}' but none was supplied{words}")
                } else {
                    format!("invalid value '{value}' for '{arg}'{words}")
                }
            }
            ErrorKind::InvalidSubcommand => format!("unrecognized subcommand '{name}'"),
            ErrorKind::MissingRequiredArgument => {
                let args: String = self.list_of(ContextKind::InvalidArg).iter().map(|arg| format!("\n  {arg}")).collect();
                format!("the following required arguments were not provided:{args}")
            }
            ErrorKind::MissingSubcommand => {
                let words = in_brackets("subcommands", self.list_of(ContextKind::ValidSubcommand));
                format!("'{name}' requires a subcommand but one was not provided{words}")
            }
            ErrorKind::TooManyValues => format!("unexpected value '{value}' for '{arg}' found; no more were expected"),
            ErrorKind::UnknownArgument => format!("unexpected argument '{arg}' found"),
            ErrorKind::ValueValidation => {
                let source = std::error::Error::source(&self.0).map(ToString::to_string).unwrap_or_default();
                format!("invalid value '{value}' for '{arg}': {source}")
            }
            _ => return None,
        })
    }

    fn tips(&self) -> Vec<String> {
        let mut tips = Vec::new();
        let names = self.list_of(ContextKind::SuggestedSubcommand);
        if !names.is_empty() {
            let are = if names.len() == 1 { "a similar subcommand exists" } else { "some similar subcommands exist" };
            tips.push(format!("{are}: '{}'", names.join("', '")));
        }
        for (kind, what) in [(ContextKind::SuggestedArg, "argument"), (ContextKind::SuggestedValue, "value")] {
            if let Some(name) = self.0.get(kind) {
                tips.push(format!("a similar {what} exists: '{name}'"));
            }
        }
        if let Some(ContextValue::StyledStrs(texts)) = self.0.get(ContextKind::Suggested) {
            tips.extend(texts.iter().filter_map(|text| told(&text.to_string())));
        }
        tips
    }
}

fn in_brackets(what: &str, words: &[String]) -> String {
    if words.is_empty() { String::new() } else { format!("\n  [{what}: {}]", words.join(", ")) }
}

/// Returns a tip on subcommands, of which `clap` before 4.1 had one, in other words. Nothing else is told.
fn told(text: &str) -> Option<String> {
    match text.split('\'').collect::<Vec<_>>()[..] {
        ["", _, " exists"] | ["subcommand ", ..] => Some(text.to_owned()),
        ["Did you mean to put ", option, " after the subcommand ", name, "?"] => Some(format!("'{name} {option}' exists")),
        _ => None,
    }
}

/// What the words say. An argument that the command lacks is as one that is left out.
pub struct ArgMatches<'a> {
    found: &'a ::clap::ArgMatches,
    words: BTreeMap<&'a str, Vec<&'a str>>,
}

impl<'a> ArgMatches<'a> {
    fn of(found: &'a ::clap::ArgMatches) -> Self {
        let words = |id| found.get_raw(id).into_iter().flatten().filter_map(OsStr::to_str).collect();
        ArgMatches { found, words: found.ids().map(|id| (id.as_str(), words(id.as_str()))).collect() }
    }

    pub fn get_strs(&self, name: &str) -> Option<&[&'a str]> {
        self.words.get(name).map(Vec::as_slice)
    }

    pub fn get_str(&self, name: &str) -> Option<&'a str> {
        self.get_strs(name)?.first().copied()
    }

    pub fn get_flag(&self, name: &str) -> bool {
        self.get_str(name) == Some("true")
    }

    pub fn subcommand(&self) -> Option<(&'a str, ArgMatches<'a>)> {
        self.found.subcommand().map(|(name, found)| (name, ArgMatches::of(found)))
    }

    pub fn remove_subcommand(&mut self) -> Option<(&'a str, ArgMatches<'a>)> {
        self.subcommand()
    }
}
