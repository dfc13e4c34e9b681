// Made from crates/zerotrie_base/src/kind.rt by rust/make: edit that.
//! The kind of a trie as a value, for code that learns the kind when the program runs.

use crate::zerotrie_base::options::{Ext, Hash, Ignore, Simple, ZeroTrieBuilderOptions, ZeroTrieWithOptions};

/// A kind of trie.
///
/// ```
/// # use zerotrie::{rstd::examples::*, zerotrie_base::*};
/// assert_eq!(TrieKind::of_tag(3), Some(TrieKind::Hash));
/// assert_eq!(TrieKind::named("ext"), Some(TrieKind::Ext));
/// assert_eq!(TrieKind::Ignore.tag(), 8);
/// # Ok::<(), Fail>(())
/// ```
#[derive(Clone, Copy, PartialEq, Eq, Debug)]
#[cfg_attr(not(feature = "__internal"), non_exhaustive)]
pub enum TrieKind {
    /// Keys are ASCII.
    Simple,
    /// Keys are ASCII, and a look-up ignores the case of their letters.
    Ignore,
    /// Keys are any bytes.
    Hash,
    /// Keys are any bytes, and a branch may have targets of any length.
    Ext,
}

/// Calls a function at a kind that is known only when the program runs.
///
/// The type of the kind takes the place of `_`: for `TrieKind::Hash`, `by_kind!(kind, f::<_, A>(x))`
/// is `f::<Hash, A>(x)`.
///
/// ```
/// # use zerotrie::{rstd::examples::*, zerotrie_base::*};
/// assert_eq!(by_kind!(TrieKind::Ignore, folded::<_>(b'A')), b'a');
/// # Ok::<(), Fail>(())
/// ```
#[cfg_attr(not(feature = "__internal"), doc(hidden))]
#[macro_export]
macro_rules! by_kind {
    ($kind:expr, $($f:ident)::+::<_ $(, $more:ty)*>($($arg:expr),* $(,)?)) => {
        match $kind {
            $crate::zerotrie_base::TrieKind::Simple => $($f)::+::<$crate::zerotrie_base::Simple $(, $more)*>($($arg),*),
            $crate::zerotrie_base::TrieKind::Ignore => $($f)::+::<$crate::zerotrie_base::Ignore $(, $more)*>($($arg),*),
            $crate::zerotrie_base::TrieKind::Hash => $($f)::+::<$crate::zerotrie_base::Hash $(, $more)*>($($arg),*),
            $crate::zerotrie_base::TrieKind::Ext => $($f)::+::<$crate::zerotrie_base::Ext $(, $more)*>($($arg),*),
        }
    };
}

impl TrieKind {
    /// The number of keys from which a trie whose kind the library chooses is no longer `Simple`.
    pub const SIMPLE_LIMIT: usize = 512;

    /// Returns the number of the kind, which tagged bytes begin with.
    pub fn tag(self) -> u8 {
        match self {
            TrieKind::Simple => Simple::TAG,
            TrieKind::Ignore => Ignore::TAG,
            TrieKind::Hash => Hash::TAG,
            TrieKind::Ext => Ext::TAG,
        }
    }

    /// Returns the kind with this number, or `None` if no kind has it.
    pub fn of_tag(number: u8) -> Option<Self> {
        match number {
            Simple::TAG => Some(TrieKind::Simple),
            Ignore::TAG => Some(TrieKind::Ignore),
            Hash::TAG => Some(TrieKind::Hash),
            Ext::TAG => Some(TrieKind::Ext),
            _ => None,
        }
    }

    /// Returns the name of the kind on a command line.
    pub fn name(self) -> &'static str {
        match self {
            TrieKind::Simple => "simple",
            TrieKind::Ignore => "ignore",
            TrieKind::Hash => "hash",
            TrieKind::Ext => "ext",
        }
    }

    /// Returns the kind with this name on a command line, or `None` if no kind has it.
    pub fn named(name: &str) -> Option<Self> {
        match name {
            "simple" => Some(TrieKind::Simple),
            "ignore" => Some(TrieKind::Ignore),
            "hash" => Some(TrieKind::Hash),
            "ext" => Some(TrieKind::Ext),
            _ => None,
        }
    }

    /// Returns the options of the kind.
    pub fn options(self) -> ZeroTrieBuilderOptions {
        by_kind!(self, ZeroTrieBuilderOptions::of::<_>())
    }
}

impl ZeroTrieBuilderOptions {
    /// Returns the kind that has these options.
    pub fn kind(&self) -> TrieKind {
        if self.ignore_case() {
            TrieKind::Ignore
        } else if self.extended() {
            TrieKind::Ext
        } else if self.use_phf() {
            TrieKind::Hash
        } else {
            TrieKind::Simple
        }
    }
}
