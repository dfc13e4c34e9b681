//! What the proved sources take from Rattle's std and Rust's own lacks: collections that carry an allocator and whose growth
//! returns an error, and lanes of bytes. Each is a few lines over Rust's own. Written by hand.
//!
//! Not an interface: the modules that `rust/make` makes use it, and tests do.
#![allow(missing_docs, clippy::new_without_default, clippy::should_implement_trait)]
#![cfg_attr(not(feature = "__internal"), allow(dead_code, unused_imports))]

/// A wrapper has the methods of what it wraps, besides its own.
macro_rules! over {
    ($name:ident<$($of:ident),*>, $field:ident, $own:ty) => {
        impl<$($of,)* A> core::ops::Deref for $name<$($of,)* A> {
            type Target = $own;
            fn deref(&self) -> &$own { &self.$field }
        }

        impl<$($of,)* A> core::ops::DerefMut for $name<$($of,)* A> {
            fn deref_mut(&mut self) -> &mut $own { &mut self.$field }
        }

        impl<$($of,)* A> IntoIterator for $name<$($of,)* A> {
            type Item = <$own as IntoIterator>::Item;
            type IntoIter = <$own as IntoIterator>::IntoIter;
            fn into_iter(self) -> Self::IntoIter { self.$field.into_iter() }
        }

        impl<'a, $($of,)* A> IntoIterator for &'a $name<$($of,)* A> {
            type Item = <&'a $own as IntoIterator>::Item;
            type IntoIter = <&'a $own as IntoIterator>::IntoIter;
            fn into_iter(self) -> Self::IntoIter { (&self.$field).into_iter() }
        }
    };
}
use over;

pub use core::{cell, cmp, convert, error, fmt, marker, ops, str};

pub mod alloc;
pub mod arrayvec;
pub mod collections;
mod lanes;
pub mod serde_json;
pub mod simd;
pub mod sort;
pub mod vec;

pub mod prelude {
    pub use super::vec::{CollectIn, Vec};
    pub use alloc::string::String;
}

pub mod boxed {
    #[derive(Clone, Debug, PartialEq, Eq)]
    pub struct BoxedSlice<T>(pub alloc::boxed::Box<[T]>);

    impl<T> BoxedSlice<T> {
        pub fn as_slice(&self) -> &[T] {
            &self.0
        }
    }
}

pub mod borrow {
    #[derive(Clone, Debug)]
    pub enum CowSlice<'a, T> {
        Borrowed(&'a [T]),
        Owned(super::vec::Vec<T>),
    }

    impl<T> CowSlice<'_, T> {
        pub fn as_slice(&self) -> &[T] {
            match self {
                CowSlice::Borrowed(items) => items,
                CowSlice::Owned(items) => items,
            }
        }
    }
}

/// Functions of `String`, which is Rust's own.
pub mod string {
    use super::alloc::{AllocError, Allocator};
    use alloc::string::String;

    pub fn new<A: Allocator>(_: A) -> String {
        String::new()
    }

    pub fn from_str<A: Allocator>(_: A, text: &str) -> Result<String, AllocError> {
        let mut copy = String::new();
        copy.try_reserve_exact(text.len())?;
        copy.push_str(text);
        Ok(copy)
    }

    pub fn from_utf8(bytes: super::vec::Vec<u8>) -> Result<String, core::str::Utf8Error> {
        String::from_utf8(bytes.into_inner()).map_err(|error| error.utf8_error())
    }
}

#[doc(hidden)]
#[macro_export]
macro_rules! __vec_in {
    (in $alloc:expr) => { $crate::rstd::vec::Vec::with_capacity($alloc, 0) };
    (in $alloc:expr; $item:expr; $count:expr) => { $crate::rstd::vec::Vec::filled($alloc, $item, $count) };
    (in $alloc:expr; $($item:expr),* $(,)?) => { $crate::rstd::vec::Vec::from_slice($alloc, &[$($item),*]) };
}
pub use crate::__vec_in as vec_in;

/// What the examples of the docs see.
pub mod examples {
    pub use super::alloc::Global;
    pub use super::borrow::CowSlice;
    pub use super::collections::{BTreeMap, VecDeque};
    pub use super::prelude::*;
    pub use crate::zerotrie_all::{ZeroTriePerfectHash, ZeroTrieSimpleAscii};
    pub type Fail = alloc::boxed::Box<dyn core::error::Error>;
}

#[cfg(feature = "__std")]
pub use std::io;

/// What an error of a file is made of: this package reads none.
#[cfg(not(feature = "__std"))]
#[allow(dead_code)]
pub mod io {
    #[derive(Debug)]
    pub enum ErrorKind {
        InvalidData,
    }

    #[derive(Debug)]
    pub struct Error(ErrorKind);

    impl From<ErrorKind> for Error {
        fn from(kind: ErrorKind) -> Self {
            Error(kind)
        }
    }
}
