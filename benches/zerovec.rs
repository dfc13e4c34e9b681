//! A stand-in for what the original's dense tables use of the crate zerovec: numbers of two bytes, the lower one first, that
//! are read where they lie.

use alloc::vec::Vec;
use core::marker::PhantomData;

/// Numbers that lie elsewhere.
#[derive(Debug, PartialEq, Eq)]
#[repr(transparent)]
pub struct ZeroSlice<T> {
    numbers: PhantomData<T>,
    bytes: [[u8; 2]],
}

impl ZeroSlice<u16> {
    fn of(bytes: &[[u8; 2]]) -> &Self {
        // SAFETY: apart from a marker the type is the slice.
        unsafe { &*(bytes as *const [[u8; 2]] as *const Self) }
    }

    pub fn get(&self, index: usize) -> Option<u16> {
        self.bytes.get(index).map(|number| u16::from_le_bytes(*number))
    }
}

/// Numbers in memory of their own.
#[derive(Debug, PartialEq, Eq)]
pub struct ZeroVec<'a, T> {
    numbers: PhantomData<&'a T>,
    bytes: Vec<[u8; 2]>,
}

impl<'a> ZeroVec<'a, u16> {
    pub fn from_slice_or_alloc(numbers: &'a [u16]) -> Self {
        ZeroVec { numbers: PhantomData, bytes: numbers.iter().map(|number| number.to_le_bytes()).collect() }
    }

    pub fn into_owned(self) -> ZeroVec<'static, u16> {
        ZeroVec { numbers: PhantomData, bytes: self.bytes }
    }

    pub fn as_slice(&self) -> &ZeroSlice<u16> {
        ZeroSlice::of(&self.bytes)
    }
}
