// Made from crates/zerotrie_words/src/code.rt by rust/make: edit that.
//! The code of a program that the options ask for.

use crate::zerotrie_words::misuse::Misuse;
use crate::zerotrie_words::options::CodeOptions;
use crate::zerotrie_queries::{Language, is_name};
use crate::zerotrie_run::Question;

/// The words of Rust that name nothing. Rattle has them too.
const KEYWORDS: &str =
    "_ abstract as async await become box break const continue crate do dyn else enum extern false \
    final fn for gen if impl in let loop macro match mod move mut override priv pub ref return \
    self Self static struct super trait true try type typeof unsafe unsized use virtual where \
    while yield";

/// The words of JavaScript that name no constant of a module, and the names that its code uses.
const JS_KEYWORDS: &str =
    "arguments await break case catch class const continue debugger default delete do else enum \
    eval export extends false finally for function if implements import in instanceof interface \
    let new null package private protected public return static super switch this throw true try \
    typeof var void while with yield Uint8Array ZeroTrie";

/// Returns why a name can't be taken, if so: it is a keyword of the language, or in C it begins with
/// `zerotrie`, as names made from it could then be those of `zerotrie.h`.
fn taken(language: Language, name: &str) -> Option<Misuse> {
    match language {
        Language::Rust | Language::Rattle if KEYWORDS.split(' ').any(|it| it == name) => {
            Some(Misuse::NameIsKeyword)
        }
        Language::JavaScript if JS_KEYWORDS.split(' ').any(|it| it == name) => {
            Some(Misuse::NameIsKeyword)
        }
        Language::C | Language::CAlone if name.starts_with("zerotrie") => {
            Some(Misuse::NameOfHeader)
        }
        Language::Rust | Language::Rattle | Language::JavaScript | Language::C | Language::CAlone =>
            None,
    }
}

/// Returns the language with this name, or `None` if no language has it. `alone` is whether the
/// reader is in front, which is for C.
fn language_named(name: &str, alone: bool) -> Option<Language> {
    match (name, alone) {
        ("rust", false) => Some(Language::Rust),
        ("c", false) => Some(Language::C),
        ("c", true) => Some(Language::CAlone),
        ("rattle", false) => Some(Language::Rattle),
        ("js", false) => Some(Language::JavaScript),
        _ => None,
    }
}

impl<'a> CodeOptions<'a> {
    /// Returns the language that is named, or C with the reader in front.
    fn language(&self) -> Result<Language, Misuse> {
        let Some(name) = self.lang else {
            return Err(Misuse::UnknownWord);
        };
        match language_named(name, self.alone) {
            Some(language) => Ok(language),
            None if self.alone => Err(Misuse::AloneIsC),
            None => Err(Misuse::UnknownWord),
        }
    }

    /// Returns what `code` asks for. It is an error if the code can't have its name.
    pub fn question(&self) -> Result<Question<'a>, Misuse> {
        let language = self.language()?;
        let name = self.name.unwrap_or(language.usual_name());
        if !is_name(name) {
            return Err(Misuse::BadName);
        }
        match taken(language, name) {
            Some(misuse) => Err(misuse),
            None => Ok(Question::Code(language, name)),
        }
    }
}
