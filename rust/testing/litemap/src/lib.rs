//! A stand-in for the crate litemap: what the tests of the crate zerotrie call, and the conversions that the crate has under its
//! feature `litemap`. The plain package has no such feature; here they are a few lines over its slices.

use std::borrow::Borrow;
use std::marker::PhantomData;
use zerotrie::rstd::alloc::Global;
use zerotrie::{
    ZeroAsciiIgnoreCaseTrie, ZeroTrie, ZeroTrieBuildError, ZeroTrieExtendedCapacity, ZeroTriePerfectHash, ZeroTrieSimpleAscii,
};

#[derive(Debug, Clone)]
pub struct LiteMap<K, V, S = Vec<(K, V)>> {
    pairs: S,
    of: PhantomData<(K, V)>,
}

impl<K, V, S> LiteMap<K, V, S> {
    fn over(pairs: S) -> Self {
        LiteMap { pairs, of: PhantomData }
    }
}

impl<K: Ord, V> LiteMap<K, V> {
    pub fn new_vec() -> Self {
        Self::over(Vec::new())
    }

    pub fn insert(&mut self, key: K, value: V) {
        match self.pairs.binary_search_by(|pair| pair.0.cmp(&key)) {
            Ok(at) => self.pairs[at].1 = value,
            Err(at) => self.pairs.insert(at, (key, value)),
        }
    }

    pub fn as_sliced(&self) -> LiteMap<K, V, &[(K, V)]> {
        LiteMap::over(&self.pairs)
    }

    pub fn to_borrowed_keys<'a, Q: ?Sized, S: FromIterator<(&'a Q, V)>>(&'a self) -> LiteMap<&'a Q, V, S>
    where
        K: Borrow<Q>,
        V: Copy,
    {
        LiteMap::over(self.pairs.iter().map(|(key, value)| (key.borrow(), *value)).collect())
    }

    pub fn to_borrowed_keys_values<'a, Q: ?Sized, X: ?Sized, S: FromIterator<(&'a Q, &'a X)>>(&'a self) -> LiteMap<&'a Q, &'a X, S>
    where
        K: Borrow<Q>,
        V: Borrow<X>,
    {
        LiteMap::over(self.pairs.iter().map(|(key, value)| (key.borrow(), value.borrow())).collect())
    }
}

impl<K, V, S: AsRef<[(K, V)]>> LiteMap<K, V, S> {
    pub fn iter(&self) -> impl Iterator<Item = (&K, &V)> {
        self.as_slice().iter().map(|(key, value)| (key, value))
    }

    pub fn as_slice(&self) -> &[(K, V)] {
        self.pairs.as_ref()
    }

    pub fn len(&self) -> usize {
        self.as_slice().len()
    }

    pub fn is_empty(&self) -> bool {
        self.as_slice().is_empty()
    }
}

impl<K: Ord, V> FromIterator<(K, V)> for LiteMap<K, V> {
    fn from_iter<T: IntoIterator<Item = (K, V)>>(pairs: T) -> Self {
        let mut map = Self::new_vec();
        for (key, value) in pairs {
            map.insert(key, value);
        }
        map
    }
}

impl<K, V, S: PartialEq> PartialEq for LiteMap<K, V, S> {
    fn eq(&self, other: &Self) -> bool {
        self.pairs == other.pairs
    }
}

fn lent<K: Borrow<[u8]>>(pairs: &[(K, usize)]) -> Vec<(&[u8], usize)> {
    pairs.iter().map(|(key, value)| (key.borrow(), *value)).collect()
}

/// The crate's methods that make a `LiteMap`.
pub trait ToLiteMap {
    type Key;
    fn to_litemap(&self) -> LiteMap<Self::Key, usize>;
}

macro_rules! conversions {
    ($($name:ident $key:ty),*) => { $(
        impl<K: Borrow<[u8]>, S: AsRef<[(K, usize)]>> TryFrom<&LiteMap<K, usize, S>> for $name<Vec<u8>>
        {
            type Error = ZeroTrieBuildError;

            fn try_from(map: &LiteMap<K, usize, S>) -> Result<Self, ZeroTrieBuildError> {
                $name::try_from_sorted_slice(&lent(map.as_slice()))
            }
        }

        impl<Store: AsRef<[u8]>> ToLiteMap for $name<Store> {
            type Key = $key;

            fn to_litemap(&self) -> LiteMap<$key, usize> {
                self.iter().map(|(key, value)| (key.into(), value)).collect()
            }
        }
    )* };
}

conversions!(
    ZeroTrieSimpleAscii String,
    ZeroAsciiIgnoreCaseTrie String,
    ZeroTriePerfectHash Vec<u8>,
    ZeroTrieExtendedCapacity Vec<u8>,
    ZeroTrie Box<[u8]>
);

macro_rules! unsized_conversions {
    ($($name:ident $key:ty),*) => { $(
        impl ToLiteMap for $name<[u8]> {
            type Key = $key;

            fn to_litemap(&self) -> LiteMap<$key, usize> {
                self.as_borrowed_slice().to_litemap()
            }
        }
    )* };
}

unsized_conversions!(
    ZeroTrieSimpleAscii String,
    ZeroAsciiIgnoreCaseTrie String,
    ZeroTriePerfectHash Vec<u8>,
    ZeroTrieExtendedCapacity Vec<u8>
);

/// The crate's hidden build in an array, in whose place is the one of the sources.
pub trait ConstBuilder: Sized {
    fn try_from_litemap_with_const_builder<'a, S: AsRef<[(&'a [u8], usize)]>>(
        map: &LiteMap<&'a [u8], usize, S>,
    ) -> Result<Self, ZeroTrieBuildError>;
}

impl ConstBuilder for ZeroTrieSimpleAscii<Vec<u8>> {
    fn try_from_litemap_with_const_builder<'a, S: AsRef<[(&'a [u8], usize)]>>(
        map: &LiteMap<&'a [u8], usize, S>,
    ) -> Result<Self, ZeroTrieBuildError> {
        type Source<S> = zerotrie::zerotrie_ascii::ZeroTrieSimpleAscii<S>;
        let trie = Source::try_from_sorted_slice_sized::<10000, 100>(Global, map.as_slice())?;
        Ok(ZeroTrieSimpleAscii::from_store(trie.into_store().into_inner()))
    }
}
