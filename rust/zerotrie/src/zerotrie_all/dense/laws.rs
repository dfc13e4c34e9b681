// Made from crates/zerotrie/src/dense/laws.rt by rust/make: edit that.
//! Laws of dense tables, over the definitions alone, as contracts that a caller's proof can cite.

use crate::zerotrie_core::laws;

/// States that no 65,535 consecutive numbers have more of a row's values than its window.
#[inline]
pub fn fullest_window() {}

/// States that a record says its own length, and that different tables have different records.
#[inline]
pub fn one_record() {}

/// States that the tries and the matrix of a table give the entry of its rows, for every prefix and
/// suffix.
#[inline]
pub fn answer_is_entry() {
    laws::one_meaning();
    laws::canonical_exactly();
}
