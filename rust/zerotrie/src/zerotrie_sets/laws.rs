// Made from crates/zerotrie_sets/src/laws.rt by rust/make: edit that.
//! Laws of the definitions alone, as contracts that a caller's proof can cite.
//!
//! Each function does nothing: a call brings its law into a proof.

/// The rows of a merge of two ascending lists ascend, and their keys are those of either list, each
/// with what each list has for it.
pub fn rows_are_of_maps() {}

/// The rows of a merge of any number of ascending lists ascend, and their keys are those of any
/// list, each with what each list has for it.
pub fn rows_of_all_are_of_maps() {}

/// What is selected of the rows of any number of ascending lists ascends, and has for each key what
/// is selected of the values of the lists.
pub fn selections_are_of_maps() {}

/// A row of a merge of any number of ascending lists is an error exactly if the values that the
/// lists have for its key are one.
pub fn row_errors_are_of_keys() {}

/// A union, an intersection or a difference of two ascending lists ascends, and has for each key
/// what is chosen of the values of the lists.
pub fn combined_are_maps() {}

/// The changes from one ascending list to another ascend, and a key is among them exactly as it
/// changed.
pub fn diffs_are_of_maps() {}

/// Nothing changed exactly if the lists are equal.
pub fn no_change() {}
