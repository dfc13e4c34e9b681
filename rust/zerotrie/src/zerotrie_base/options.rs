// Made from crates/zerotrie_base/src/options.rt by rust/make: edit that.
//! The kinds of trie, as types.

/// The constants of a kind of trie.
///
/// `TAG` is the number of the kind in tagged bytes. It is the sum of 1, 2, 4 and 8 for each of the
/// other constants, in their order, that is set: 0, 3, 7 or 8.
pub trait ZeroTrieWithOptions {
    /// Whether a branch of 16 edges or more has a perfect hash as its search table.
    const USE_PHF: bool;
    /// Whether bytes of 128 or more that are not edges of a branch are in spans.
    const SPANS: bool;
    /// Whether the offsets of a branch may have more than four bytes.
    const EXTENDED: bool;
    /// Whether look-ups ignore the case of ASCII letters.
    const IGNORE_CASE: bool;
    /// The number of the kind.
    const TAG: u8;
}

/// The kind over ASCII keys.
#[derive(Clone, Copy, Debug, PartialEq, Eq)]
pub struct Simple;

impl ZeroTrieWithOptions for Simple {
    const USE_PHF: bool = false;

    const SPANS: bool = false;

    const EXTENDED: bool = false;

    const IGNORE_CASE: bool = false;

    const TAG: u8 = 0;
}

/// The kind over ASCII keys that ignores their case.
#[derive(Clone, Copy, Debug, PartialEq, Eq)]
pub struct Ignore;

impl ZeroTrieWithOptions for Ignore {
    const USE_PHF: bool = false;

    const SPANS: bool = false;

    const EXTENDED: bool = false;

    const IGNORE_CASE: bool = true;

    const TAG: u8 = 8;
}

/// The kind over keys of any bytes, with perfect hashes in wide branches.
#[derive(Clone, Copy, Debug, PartialEq, Eq)]
pub struct Hash;

impl ZeroTrieWithOptions for Hash {
    const USE_PHF: bool = true;

    const SPANS: bool = true;

    const EXTENDED: bool = false;

    const IGNORE_CASE: bool = false;

    const TAG: u8 = 3;
}

/// The kind over keys of any bytes whose branches may have targets of any length.
#[derive(Clone, Copy, Debug, PartialEq, Eq)]
pub struct Ext;

impl ZeroTrieWithOptions for Ext {
    const USE_PHF: bool = true;

    const SPANS: bool = true;

    const EXTENDED: bool = true;

    const IGNORE_CASE: bool = false;

    const TAG: u8 = 7;
}

/// The constants of a kind of trie, as a value.
///
/// ```
/// # use zerotrie::{rstd::examples::*, zerotrie_base::*};
/// let options = ZeroTrieBuilderOptions::of::<Simple>();
/// assert!(!options.ignore_case());
/// # Ok::<(), Fail>(())
/// ```
#[derive(Clone, Copy, Debug, PartialEq, Eq)]
pub struct ZeroTrieBuilderOptions {
    use_phf: bool,
    spans: bool,
    extended: bool,
    ignore_case: bool,
}

impl ZeroTrieBuilderOptions {
    /// Returns the constants of `K`.
    pub fn of<K: ZeroTrieWithOptions>() -> Self {
        ZeroTrieBuilderOptions {
            use_phf: K::USE_PHF,
            spans: K::SPANS,
            extended: K::EXTENDED,
            ignore_case: K::IGNORE_CASE,
        }
    }

    /// Returns whether a branch of 16 edges or more has a perfect hash as its search table.
    pub fn use_phf(&self) -> bool {
        self.use_phf
    }

    /// Returns whether bytes of 128 or more that are not edges of a branch are in spans.
    pub fn spans(&self) -> bool {
        self.spans
    }

    /// Returns whether the offsets of a branch may have more than four bytes.
    pub fn extended(&self) -> bool {
        self.extended
    }

    /// Returns whether look-ups ignore the case of ASCII letters.
    pub fn ignore_case(&self) -> bool {
        self.ignore_case
    }
}
