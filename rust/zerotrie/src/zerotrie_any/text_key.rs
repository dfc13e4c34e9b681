// Made from crates/zerotrie_any/src/text_key.rt by rust/make: edit that.
//! String keys.

use crate::rstd::prelude::*;
use crate::zerotrie_core::TrieKey;

/// A string key, `&str` or `String`, which is ordered by its bytes.
///
/// ```
/// # use zerotrie::{rstd::examples::*, zerotrie_any::*, zerotrie_base::*, zerotrie_core::*, zerotrie_build::*};
/// assert_eq!("ad".key_text(), "ad");
/// # Ok::<(), Fail>(())
/// ```
pub trait TextKey: TrieKey + Ord {
    /// Returns the key as a string. Does not copy or allocate.
    fn key_text(&self) -> &str;
}

impl TextKey for &str {
    fn key_text(&self) -> &str {
        *self
    }
}

impl TextKey for String {
    fn key_text(&self) -> &str {
        self.as_str()
    }
}
