//! JSON values, as `serde_json` has them. Their text is left to others.
use super::alloc::{AllocError, Allocator};
use super::{collections::BTreeMap, vec::Vec};
use alloc::string::String;

pub type Map<K, V> = BTreeMap<K, V>;

#[derive(Clone, Debug, PartialEq)]
pub enum Value {
    Null,
    Bool(bool),
    Number(Number),
    String(String),
    Array(Vec<Value>),
    Object(Map<String, Value>),
}

#[derive(Clone, Debug, PartialEq)]
pub enum Number {
    Whole(u64),
    Other(f64),
}

impl Value {
    pub fn as_u64(&self) -> Option<u64> {
        if let Value::Number(Number::Whole(number)) = self { Some(*number) } else { None }
    }

    pub fn as_str(&self) -> Option<&str> {
        if let Value::String(text) = self { Some(text) } else { None }
    }
    pub fn as_array(&self) -> Option<&Vec<Value>> {
        if let Value::Array(items) = self { Some(items) } else { None }
    }

    pub fn as_object(&self) -> Option<&Map<String, Value>> {
        if let Value::Object(members) = self { Some(members) } else { None }
    }
}

impl From<usize> for Value {
    fn from(number: usize) -> Self {
        Value::Number(Number::Whole(number as u64))
    }
}

impl From<u8> for Value {
    fn from(number: u8) -> Self {
        usize::from(number).into()
    }
}

pub fn put<A: Allocator>(members: &mut Map<String, Value>, alloc: A, key: &str, value: Value) -> Result<(), AllocError> {
    members.insert(super::string::from_str(alloc, key)?, value)?;
    Ok(())
}
