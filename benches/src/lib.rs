//! What the programs that measure have in common.

pub mod asked;
pub mod library;
pub mod peers;
pub mod sets;
pub mod table;
pub mod walker;

#[path = "../../rust/compare/src/functions.rs"]
mod functions;

/// The Rust crate zerotrie.
#[cfg(original)]
pub extern crate original;

pub use zerotrie::TrieKind as Kind;

/// The kinds that can have these keys.
pub fn kinds_of(keys: &[Vec<u8>]) -> Vec<Kind> {
    let is_ascii = keys.iter().all(|key| key.is_ascii());
    let is_lower = is_ascii && !keys.iter().flatten().any(u8::is_ascii_uppercase);
    let kinds = [(Kind::Simple, is_ascii), (Kind::Ignore, is_lower), (Kind::Hash, true), (Kind::Ext, true)];
    kinds.into_iter().filter_map(|(kind, fits)| fits.then_some(kind)).collect()
}

/// Does work with the type of a kind: that of plain Rust, or of the Rust crate, whose types have the same names.
#[macro_export]
macro_rules! by_type {
    ($kind:expr, $package:ident, $trie:ident => $work:expr) => {
        match $kind {
            $crate::Kind::Simple => {
                use $package::ZeroTrieSimpleAscii as $trie;
                $work
            }
            $crate::Kind::Ignore => {
                use $package::ZeroAsciiIgnoreCaseTrie as $trie;
                $work
            }
            $crate::Kind::Hash => {
                use $package::ZeroTriePerfectHash as $trie;
                $work
            }
            $crate::Kind::Ext => {
                use $package::ZeroTrieExtendedCapacity as $trie;
                $work
            }
        }
    };
}
