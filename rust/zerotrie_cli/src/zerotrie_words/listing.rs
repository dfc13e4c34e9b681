// Made from crates/zerotrie_words/src/listing.rt by rust/make: edit that.
//! How the options of a listing ask for pairs.

use crate::zerotrie_words::misuse::Misuse;
use crate::zerotrie_words::options::ListOptions;
use crate::rstd::ops::Bound;
use crate::zerotrie_queries::{Choice, Form, ListQuery, Order, Style};
use crate::zerotrie_run::Question;
use crate::zerotrie_search::KeyRange;

/// Returns the form with this name, or `None` if no form of pairs has it.
fn form_named(name: &str) -> Option<Form> {
    match name {
        "tsv" => Some(Form::Lines(Style::Tsv)),
        "keys" => Some(Form::Lines(Style::Keys)),
        "values" => Some(Form::Lines(Style::Values)),
        "csv" => Some(Form::Lines(Style::Csv)),
        "jsonl" => Some(Form::Lines(Style::JsonLines)),
        "json" => Some(Form::Json),
        _ => None,
    }
}

/// Returns how pairs are printed that are to be printed so: if none is to be, as their number.
fn form_shown(quiet: bool, named: Form) -> Form {
    if quiet { Form::Count } else { named }
}

/// Returns the order of pairs by flags. What is only to be counted needs none.
fn order_by(count: bool, sorted: bool) -> Order {
    match (count, sorted) {
        (false, true) => Order::ByBytes,
        (true, _) | (false, false) => Order::Stored,
    }
}

/// Returns the number that the word of a limit is, or `None` if there is none. It is an error if the
/// word is no number, which clap refuses.
pub fn limit_of(word: Option<&str>) -> Result<Option<usize>, Misuse> {
    let Some(word) = word else {
        return Ok(None);
    };
    match word.parse() {
        Ok(limit) => Ok(Some(limit)),
        Err(_) => Err(Misuse::UnknownWord),
    }
}

/// Returns how many pairs are listed at most: as many as the limit says, but one if none is printed.
fn most_of(quiet: bool, limit: Option<usize>) -> Option<usize> {
    match (quiet, limit) {
        (false, limit) => limit,
        (true, Some(limit)) => Some(limit.min(1)),
        (true, None) => Some(1),
    }
}

impl<'a> ListOptions<'a> {
    /// Returns how pairs are to be printed.
    fn named_form(&self) -> Result<Form, Misuse> {
        match (self.count, self.raw, self.format) {
            (true, false, None) => Ok(Form::Count),
            (true, _, _) => Err(Misuse::CountWithForm),
            (false, true, None | Some("tsv")) => Ok(Form::Lines(Style::TsvRaw)),
            (false, true, Some(_)) => Err(Misuse::RawIsTsv),
            (false, false, None) => Ok(Form::Lines(Style::Tsv)),
            (false, false, Some(name)) => form_named(name).ok_or(Misuse::UnknownWord),
        }
    }

    /// Returns how pairs are printed: if none is to be, as their number, which any key allows.
    pub fn form(&self) -> Result<Form, Misuse> {
        let named = self.named_form()?;
        Ok(form_shown(self.quiet, named))
    }

    /// Returns how many pairs of the greatest values are listed, if only these are. It is an error if there is
    /// a limit, too.
    pub fn top(&self) -> Result<Option<usize>, Misuse> {
        match (self.top, self.limit) {
            (None, _) => Ok(None),
            (Some(_), None) => limit_of(self.top),
            (Some(_), Some(_)) => Err(Misuse::TopAndLimit),
        }
    }

    /// Returns how many pairs are listed at most.
    pub fn most(&self) -> Result<Option<usize>, Misuse> {
        let limit = limit_of(self.limit)?;
        Ok(most_of(self.quiet, limit))
    }

    /// Returns what keys have to begin with.
    pub fn front(&self) -> &'a [u8] {
        self.prefix.unwrap_or("").as_bytes()
    }

    /// Returns the range that keys have to be in. It is an error if it ends twice.
    pub fn range(&self) -> Result<KeyRange<'a>, Misuse> {
        let from = match self.from {
            Some(word) => Bound::Included(word.as_bytes()),
            None => Bound::Unbounded,
        };
        let to = match (self.below, self.to) {
            (None, None) => Bound::Unbounded,
            (Some(word), None) => Bound::Excluded(word.as_bytes()),
            (None, Some(word)) => Bound::Included(word.as_bytes()),
            (Some(_), Some(_)) => return Err(Misuse::TwoEnds),
        };
        Ok(KeyRange { from, to })
    }

    /// Returns which keys are listed: those with a prefix, in a range.
    fn choice(&self) -> Result<Choice<'a>, Misuse> {
        Ok(Choice {
            prefix: self.front(),
            range: self.range()?,
            without: None,
            sought: None,
        })
    }

    /// Returns what `list` asks for, by whether it is to be in the order of bytes.
    pub fn question(&self, sorted: bool) -> Result<Question<'a>, Misuse> {
        let form = self.form()?;
        let query = ListQuery {
            choice: self.choice()?,
            order: order_by(self.count, sorted),
            top: self.top()?,
            limit: self.most()?,
        };
        Ok(Question::List(form, query))
    }
}
