// Made from crates/zerotrie_words/src/search.rt by rust/make: edit that.
//! How the options of a search ask for pairs.

use crate::zerotrie_words::misuse::Misuse;
use crate::zerotrie_words::options::{ListOptions, SearchOptions};
use crate::zerotrie_queries::{Choice, Form, ListQuery, Order, Pattern, Sought};
use crate::zerotrie_run::Question;
use crate::zerotrie_search::{AnyAutomaton, SearchBy};

/// How many edits are allowed if `--edits` is left out.
const EDITS: u8 = 2;

/// Returns the bytes of a word. It is an error if it is none of its sort.
fn word_by(by: SearchBy, word: &str) -> Result<&[u8], Misuse> {
    let word = word.as_bytes();
    match AnyAutomaton::new(by, word) {
        Ok(_) => Ok(word),
        Err(error) => Err(Misuse::Word(by, error)),
    }
}

/// Returns whether keys have to begin so, or to be in a range.
fn has_part(list: &ListOptions<'_>) -> bool {
    list.prefix.is_some() || list.from.is_some() || list.below.is_some() || list.to.is_some()
}

impl<'a> SearchOptions<'a> {
    /// Returns how the word of `--glob` finds keys: by characters, or by bytes with a flag.
    fn glob_by(&self) -> SearchBy {
        if self.bytes {
            SearchBy::Glob
        } else {
            SearchBy::GlobChars
        }
    }

    /// Returns how the word of `--fuzzy` finds keys: by edits of characters, or of bytes with a flag,
    /// where neighbours that change places are one edit, but not with another flag.
    fn fuzzy_by(&self, edits: u8) -> SearchBy {
        let edits = u32::from(edits);
        match (self.bytes, self.no_transpose) {
            (false, false) => SearchBy::SwapsChars(edits),
            (false, true) => SearchBy::FuzzyChars(edits),
            (true, false) => SearchBy::Swaps(edits),
            (true, true) => SearchBy::Fuzzy(edits),
        }
    }

    /// Returns how many edits are allowed. It is an error if the word is no number, which clap
    /// refuses.
    fn edits(&self) -> Result<u8, Misuse> {
        let Some(word) = self.edits else {
            return Ok(EDITS);
        };
        match word.parse() {
            Ok(edits) => Ok(edits),
            Err(_) => Err(Misuse::UnknownWord),
        }
    }

    /// Returns the first option that is there without the word that it is of, if there is one.
    fn idle(&self) -> Option<Misuse> {
        if self.fuzzy.is_some() {
            return None;
        }
        if self.edits.is_some() {
            return Some(Misuse::IdleEdits);
        }
        if self.no_transpose {
            return Some(Misuse::IdleSwaps);
        }
        if self.beginnings {
            return Some(Misuse::IdleBeginnings);
        }
        if self.bytes && self.glob.is_none() && self.not.is_none() {
            return Some(Misuse::IdleBytes);
        }
        None
    }

    /// Returns a word by which keys are sought, or with a flag what they begin with. It is an error if
    /// it is none of its sort.
    fn sought_by(&self, by: SearchBy, word: &'a str) -> Result<Option<Sought<'a>>, Misuse> {
        Ok(Some(Sought {
            by,
            word: word_by(by, word)?,
            begins: self.beginnings,
        }))
    }

    /// Returns the word by which keys are sought, or `None` if none is given. It is an error if more
    /// than one is, if a word is none of its sort, or if an option is of no use.
    fn sought(&self) -> Result<Option<Sought<'a>>, Misuse> {
        if let Some(misuse) = self.idle() {
            return Err(misuse);
        }
        match (self.glob, self.fuzzy, self.subsequence) {
            (None, None, None) => Ok(None),
            (Some(pattern), None, None) => self.sought_by(self.glob_by(), pattern),
            (None, Some(word), None) => self.sought_by(self.fuzzy_by(self.edits()?), word),
            (None, None, Some(word)) => self.sought_by(SearchBy::Subsequence, word),
            (Some(_), Some(_), _) | (Some(_), None, Some(_)) | (None, Some(_), Some(_)) => {
                Err(Misuse::TooMuchSought)
            }
        }
    }

    /// Returns the pattern that no key is to match, or `None` if none is given. It is an error if it is
    /// malformed.
    fn without(&self) -> Result<Option<Pattern<'a>>, Misuse> {
        let Some(text) = self.not else {
            return Ok(None);
        };
        Ok(Some(Pattern {
            by_chars: !self.bytes,
            text: word_by(self.glob_by(), text)?,
        }))
    }

    /// Returns which keys are looked for. It is an error if the options ask for all, or if they are
    /// wrong.
    fn choice(&self) -> Result<Choice<'a>, Misuse> {
        let sought = self.sought()?;
        let without = self.without()?;
        if sought.is_none() && without.is_none() && !has_part(&self.list) {
            return Err(Misuse::NothingSought);
        }
        Ok(Choice {
            prefix: self.list.front(),
            range: self.list.range()?,
            without,
            sought,
        })
    }

    /// Returns why no distances can be printed, if so.
    fn unmeasured(&self) -> Option<Misuse> {
        if self.fuzzy.is_none() {
            return Some(Misuse::IdleDistance);
        }
        let other = self.list.format.is_some() || self.list.raw || self.list.count;
        other.then_some(Misuse::DistanceForm)
    }

    /// Returns how pairs are to be printed.
    fn form(&self) -> Result<Form, Misuse> {
        if !self.distance {
            return self.list.form();
        }
        match self.unmeasured() {
            Some(misuse) => Err(misuse),
            None => Ok(Form::Distances),
        }
    }

    /// Returns the order of the pairs. Of keys that are near a word the nearest come first, and without
    /// a number of edits there are only those of the fewest edits.
    fn order(&self) -> Order {
        match (self.fuzzy, self.edits) {
            (Some(_), None) => Order::Closest,
            (Some(_), Some(_)) if !self.list.count => Order::Nearest,
            (None, _) | (Some(_), Some(_)) => Order::ByBytes,
        }
    }

    /// Returns what `search` asks for.
    pub fn question(&self) -> Result<Question<'a>, Misuse> {
        let form = self.form()?;
        let query = ListQuery {
            choice: self.choice()?,
            order: self.order(),
            top: self.list.top()?,
            limit: self.list.most()?,
        };
        Ok(Question::List(form, query))
    }
}
