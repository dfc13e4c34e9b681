// Made from crates/zerotrie/src/dense/get.rt by rust/make: edit that.
//! Look-ups in a dense table.

use crate::zerotrie_all::dense::laws::answer_is_entry;
use crate::zerotrie_all::dense::table::ZeroAsciiDenseSparse2dTrieBorrowed;
use crate::zerotrie_core::{Simple, laws, step, take_value};

/// Steps by each byte of a key, as long as anything remains.
#[inline]
fn follow(trie: &mut &[u8], key: &[u8]) {
    for byte in key {
        if trie.is_empty() {
            return;
        }
        let _edge = step::<Simple>(trie, *byte);
    }
}

/// Returns the value of a key in a trie.
#[inline]
fn value_after(trie: &[u8], key: &[u8]) -> Option<usize> {
    let mut left = trie;
    follow(&mut left, key);
    take_value(&mut left)
}

/// Returns the value of a key in a trie, and for the empty key `None`.
#[inline]
fn value_beside(trie: &[u8], key: &[u8]) -> Option<usize> {
    if key.is_empty() {
        return None;
    }
    value_after(trie, key)
}

impl<'a> ZeroAsciiDenseSparse2dTrieBorrowed<'a> {
    /// Returns the value of a prefix and a suffix, or `None` if the table does not have it. Does
    /// not allocate.
    ///
    /// ```
    /// # use zerotrie::{rstd::examples::*, zerotrie_all::*, zerotrie_base::*, zerotrie_core::*, zerotrie_build::*, zerotrie_any::*, zerotrie_ascii::*, zerotrie_hashed::*};
    /// use zerotrie::zerotrie_all::dense::ZeroAsciiDenseSparse2dTrieOwned;
    ///
    /// let mut row: BTreeMap<&str, usize> = BTreeMap::new(Global);
    /// row.insert("US", 8)?;
    /// let mut rows: BTreeMap<&str, BTreeMap<&str, usize>> = BTreeMap::new(Global);
    /// rows.insert("en", row)?;
    /// let table = ZeroAsciiDenseSparse2dTrieOwned::try_from_btree_map_str(Global, &rows, b'/')?;
    /// let table = table.as_borrowed();
    /// assert_eq!(table.get("en", "US"), Some(8));
    /// assert_eq!(table.get("en", "UK"), None);
    /// # Ok::<(), Fail>(())
    /// ```
    ///
    /// A string that has the delimiter or is not ASCII is in no table. On a table from a malformed
    /// record the result is unspecified; it never panics or reads outside the record.
    #[inline]
    pub fn get(&self, prefix: &str, suffix: &str) -> Option<usize> {
        self.get_bytes(prefix.as_bytes(), suffix.as_bytes())
    }

    /// Returns the value of a prefix and a suffix, as `get` does, for bytes that need not be UTF-8.
    ///
    /// ```
    /// # use zerotrie::{rstd::examples::*, zerotrie_all::*, zerotrie_base::*, zerotrie_core::*, zerotrie_build::*, zerotrie_any::*, zerotrie_ascii::*, zerotrie_hashed::*};
    /// use zerotrie::zerotrie_all::dense::ZeroAsciiDenseSparse2dTrieOwned;
    ///
    /// let mut row: BTreeMap<&str, usize> = BTreeMap::new(Global);
    /// row.insert("US", 8)?;
    /// let mut rows: BTreeMap<&str, BTreeMap<&str, usize>> = BTreeMap::new(Global);
    /// rows.insert("en", row)?;
    /// let table = ZeroAsciiDenseSparse2dTrieOwned::try_from_btree_map_str(Global, &rows, b'/')?;
    /// assert_eq!(table.as_borrowed().get_bytes(b"en", b"US"), Some(8));
    /// assert_eq!(table.as_borrowed().get_bytes(b"en", b"\xFF"), None);
    /// # Ok::<(), Fail>(())
    /// ```
    #[inline]
    pub fn get_bytes(&self, prefix: &[u8], suffix: &[u8]) -> Option<usize> {
        laws::canonical_exactly();
        answer_is_entry();
        self.answer(prefix, suffix)
    }

    /// Returns the value by the two tries and the matrix.
    #[inline]
    fn answer(&self, prefix: &[u8], suffix: &[u8]) -> Option<usize> {
        if prefix.contains(&self.delimiter) || suffix.contains(&self.delimiter) {
            return None;
        }
        let mut trie = self.primary.as_bytes();
        follow(&mut trie, prefix);
        let row = take_value(&mut trie);
        let _edge = step::<Simple>(&mut trie, self.delimiter);
        match row {
            Some(row) => self.answer_in_row(trie, row, suffix),
            None => value_after(trie, suffix),
        }
    }

    /// Returns the value of a suffix in a dense row. `trie` is what the primary trie has after the
    /// prefix and the delimiter.
    #[inline]
    fn answer_in_row(&self, trie: &[u8], row: usize, suffix: &[u8]) -> Option<usize> {
        let mut left = trie;
        let offset = take_value(&mut left);
        match value_beside(left, suffix) {
            Some(value) => Some(value),
            None => self.in_matrix(row, offset, self.suffixes.get(suffix)),
        }
    }

    /// Returns the value in the matrix for a row, its offset and a column, if these exist.
    #[inline]
    fn in_matrix(&self, row: usize, offset: Option<usize>, column: Option<usize>) -> Option<usize> {
        let offset = offset?;
        let column = column?;
        let index = row
            .checked_mul(usize::from(self.suffix_count))?
            .checked_add(column)?;
        if index >= self.matrix.len() / 2 {
            return None;
        }
        let cell = u16::from_le_bytes([self.matrix[2 * index], self.matrix[2 * index + 1]]);
        if cell == u16::MAX {
            return None;
        }
        offset.checked_add(usize::from(cell))
    }
}
