// Made from crates/zerotrie_lines/src/items.rt by rust/make: edit that.
//! Pairs whose keys borrow the input.

use crate::rstd::prelude::*;
use crate::zerotrie_lines::lines::take_ended;
use crate::zerotrie_lines::numbers::parse_number;
use crate::zerotrie_lines::reading::{Format, Header, LineEnd, TextForm, pair_text};
use crate::rstd::memchr::{memchr, memchr3};
use crate::rstd::alloc::{AllocError, Global};
use crate::rstd::simd::prelude::*;

/// As many nines as fit.
const MOST_DIGITS: usize = if usize::BITS == 64 { 18 } else { 9 };

/// Reads the digits that a text begins with: returns their number and how many they are. `None` if
/// there are none.
///
/// It reads at most `MOST_DIGITS` digits, whose number can't overflow.
#[inline(always)]
fn leading_number(text: &[u8]) -> Option<(usize, usize)> {
    let mut value: usize = 0;
    let mut count = 0;
    while count < MOST_DIGITS && count < text.len() && text[count].is_ascii_digit() {
        value = value * 10 + (text[count] - b'0') as usize;
        count += 1;
    }
    if count == 0 {
        return None;
    }
    Some((value, count))
}

/// Returns what follows the line feed that a text begins with, or nothing if the text is empty.
#[inline(always)]
fn after_feed(text: &[u8]) -> Option<&[u8]> {
    match text {
        [] => Some(text),
        [b'\n', rest @ ..] => Some(rest),
        _ => None,
    }
}

/// Returns what follows the carriage return and line feed that a text begins with.
#[inline(always)]
fn after_return(text: &[u8]) -> Option<&[u8]> {
    match text {
        [b'\r', b'\n', rest @ ..] => Some(rest),
        _ => None,
    }
}

/// Returns what follows the line end that a text begins with, or nothing if the text is empty.
#[inline(always)]
fn after_end(end: LineEnd, text: &[u8]) -> Option<&[u8]> {
    match after_feed(text) {
        Some(rest) => Some(rest),
        None => match end {
            LineEnd::CrLf => after_return(text),
            LineEnd::Lf => None,
        },
    }
}

/// Finds the first tab, backslash or line feed. It compares the first sixteen bytes at once, since
/// most keys are shorter.
#[inline(always)]
fn first_stop(text: &[u8]) -> Option<usize> {
    if text.len() >= 16 {
        let lanes = u8x16::from_slice(text);
        let tabs = lanes.simd_eq(u8x16::splat(b'\t')).to_bitmask();
        let slashes = lanes.simd_eq(u8x16::splat(b'\\')).to_bitmask();
        let feeds = lanes.simd_eq(u8x16::splat(b'\n')).to_bitmask();
        let stops = tabs | slashes | feeds;
        if stops != 0 {
            return Some(stops.trailing_zeros() as usize);
        }
    }
    memchr3(b'\t', b'\\', b'\n', text)
}

/// Takes the first line off, which is a number. `None` if it is not; the rest is then unspecified.
#[inline(always)]
fn take_number(end: LineEnd, rest: &mut &[u8]) -> Option<usize> {
    let all = *rest;
    if let Some((value, count)) = leading_number(all) {
        let (_, tail) = all.split_at(count);
        if let Some(after) = after_end(end, tail) {
            *rest = after;
            return Some(value);
        }
    }
    parse_number(take_ended(end, rest))
}

/// Takes the first line off, which is a key, a tab and a number, and returns the pair. The key
/// borrows the input.
///
/// ```
/// let mut rest = b"ad\t22\nadef\t33\n".as_slice();
/// assert_eq!(rt; take_plain(LineEnd::CrLf, &mut rest), Some((b"ad".as_slice(), 22)));
/// assert_eq!(rt; rest, b"adef\t33\n".as_slice());
/// ```
///
/// It is `None` exactly if a backslash is before the tab, or the line is no pair. The input is
/// then left unchanged.
#[inline(always)]
pub fn take_plain<'a>(end: LineEnd, rest: &mut &'a [u8]) -> Option<(&'a [u8], usize)> {
    let all = *rest;
    let place = first_stop(all)?;
    if all[place] != b'\t' {
        return None;
    }
    let (key, _) = all.split_at(place);
    let (_, mut after) = all.split_at(place + 1);
    let value = take_number(end, &mut after)?;
    *rest = after;
    Some((key, value))
}

/// Reads lines with a tab. `None` if a key has an escape, or a line is no pair.
fn items_of_tsv(
    alloc: Global,
    end: LineEnd,
    text: &[u8],
) -> Result<Option<Vec<(&[u8], usize)>>, AllocError> {
    let mut items = Vec::new(alloc);
    let mut rest = text;
    while !rest.is_empty() {
        match take_plain(end, &mut rest) {
            Some(item) => items.push(item)?,
            None => return Ok(None),
        }
    }
    Ok(Some(items))
}

/// Splits a line into a key, a tab and a number. `None` if it is no pair.
#[inline(always)]
fn raw_pair(line: &[u8]) -> Option<(&[u8], usize)> {
    let place = memchr(b'\t', line)?;
    let value = parse_number(&line[place + 1..])?;
    Some((&line[..place], value))
}

/// Reads lines with a tab, whose keys are raw. `None` if a line is no pair.
fn items_of_raw(
    alloc: Global,
    end: LineEnd,
    text: &[u8],
) -> Result<Option<Vec<(&[u8], usize)>>, AllocError> {
    let mut items = Vec::new(alloc);
    let mut rest = text;
    while !rest.is_empty() {
        match raw_pair(take_ended(end, &mut rest)) {
            Some(item) => items.push(item)?,
            None => return Ok(None),
        }
    }
    Ok(Some(items))
}

/// Reads lines with a tab behind the header. `None` if that names columns, or a key has an escape though
/// keys are not raw, or a line is no pair.
fn items_of_tabbed<'a>(
    alloc: Global,
    raw: bool,
    form: TextForm<'_>,
    input: &'a [u8],
) -> Result<Option<Vec<(&'a [u8], usize)>>, AllocError> {
    match form.header {
        Header::Named(_) => Ok(None),
        Header::Absent | Header::Present => {
            let text = pair_text(form.header, input);
            if raw {
                items_of_raw(alloc, form.end, text)
            } else {
                items_of_tsv(alloc, form.end, text)
            }
        }
    }
}

/// Reads lines that are keys. So many lines were before them.
fn items_of_keys(
    alloc: Global,
    end: LineEnd,
    before: usize,
    text: &[u8],
) -> Result<Vec<(&[u8], usize)>, AllocError> {
    let mut items = Vec::new(alloc);
    let mut rest = text;
    let mut number = before;
    while !rest.is_empty() {
        let line = take_ended(end, &mut rest);
        number += 1;
        items.push((line, number))?;
    }
    Ok(items)
}

/// Reads the pairs of an input, whose keys borrow it. It is `None` only if a line has a backslash
/// before its tab, or is no pair, or the input is records, or columns that a header names:
/// `read_pairs` then copies the keys, or returns the error.
///
/// ```
/// let items = read_items(rt.alloc(), TSV, b"ad\t22\nadef\t33\n")?;
/// assert_eq!(rt; items.map(|items| items[1]), Some((b"adef".as_slice(), 33)));
/// ```
///
/// It allocates the list alone.
pub fn read_items<'a>(
    alloc: Global,
    form: TextForm<'_>,
    input: &'a [u8],
) -> Result<Option<Vec<(&'a [u8], usize)>>, AllocError> {
    match form.format {
        Format::Tsv => items_of_tabbed(alloc, false, form, input),
        Format::TsvRaw => items_of_tabbed(alloc, true, form, input),
        Format::Lines => {
            let text = pair_text(form.header, input);
            Ok(Some(items_of_keys(alloc, form.end, form.header.rows(), text)?))
        }
        Format::Csv => Ok(None),
    }
}
