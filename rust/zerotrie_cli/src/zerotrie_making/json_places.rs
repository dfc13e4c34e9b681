// Made from crates/zerotrie_making/src/json_places.rt by rust/make: edit that.
//! Where a text ceases to be JSON.

use crate::rstd::prelude::*;
use crate::zerotrie_making::error::MakeError;
use crate::rstd::json::{MAX_DEPTH, Reader, Scratch, Token};
use crate::rstd::alloc::{AllocError, Global};

/// What is before a place in a JSON text.
struct Front {
    /// The open brackets, the outermost first: whether each is that of an object.
    objects: Vec<bool>,
    /// Whether a key is just before, whose value must follow.
    after_key: bool,
    /// Whether the whole value is before.
    is_done: bool,
}

impl Front {
    /// Returns whether a token may follow.
    fn fits(&self, token: Token<'_>) -> bool {
        let in_object = self.objects.last().copied();
        match token {
            Token::Bad => false,
            Token::Key(_) | Token::EndObject => in_object == Some(true) && !self.after_key,
            Token::EndArray => in_object == Some(false),
            Token::BeginObject | Token::BeginArray if self.objects.len() >= MAX_DEPTH => false,
            _ => match in_object {
                Some(true) => self.after_key,
                Some(false) => true,
                None => !self.is_done,
            },
        }
    }

    /// Passes a token.
    fn pass(&mut self, token: Token<'_>) -> Result<(), AllocError> {
        match token {
            Token::BeginObject => self.objects.push(true)?,
            Token::BeginArray => self.objects.push(false)?,
            Token::EndObject | Token::EndArray => {
                self.objects.pop();
            }
            _ => {}
        }
        self.after_key = matches!(token, Token::Key(_));
        self.is_done = self.objects.is_empty();
        Ok(())
    }
}

/// Returns where the first token begins that can't be there, or the end of a text that lacks one.
fn first_misfit(alloc: Global, text: &str) -> Result<usize, AllocError> {
    let mut scratch = Scratch::new(alloc);
    let mut reader = Reader::new(text, &mut scratch)?;
    let mut front = Front {
        objects: Vec::new(alloc),
        after_key: false,
        is_done: false,
    };
    let mut place = reader.offset();
    while let Some(token) = reader.next() {
        if !front.fits(token) {
            break;
        }
        front.pass(token)?;
        place = reader.offset();
    }
    Ok(place)
}

/// Returns whether a byte of UTF-8 begins a character.
fn begins_character(byte: u8) -> bool {
    byte < 128 || 192 <= byte
}

/// Returns the line and the column after these bytes, both from 1 on. Columns are characters.
fn line_and_column(front: &[u8]) -> (usize, usize) {
    let mut line: usize = 1;
    let mut column: usize = 1;
    for byte in front {
        if *byte == b'\n' {
            line = line.saturating_add(1);
            column = 1;
        } else if begins_character(*byte) {
            column = column.saturating_add(1);
        }
    }
    (line, column)
}

/// Returns what is before a place, or all of a text that is shorter.
fn front_of(text: &[u8], place: usize) -> &[u8] {
    if place < text.len() {
        &text[..place]
    } else {
        text
    }
}

/// Returns the error of a text that is no JSON value from this place on.
pub(in crate::zerotrie_making) fn not_json(text: &[u8], place: usize) -> MakeError {
    let (line, column) = line_and_column(front_of(text, place));
    MakeError::NotJson(line, column)
}

/// Returns the error of a text that is no JSON value, with the place that shows it.
pub(in crate::zerotrie_making) fn why_no_json(alloc: Global, text: &str) -> Result<MakeError, AllocError> {
    let place = first_misfit(alloc, text)?;
    Ok(not_json(text.as_bytes(), place))
}
