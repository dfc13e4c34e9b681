// Made from tests/rows/items.rt.in by rust/make: edit that.
//! Items by their numbers.

use crate::rstd::prelude::*;
use super::*;
use crate::zerotrie_build::ByteSliceWithIndices;

#[test]
fn to_vec_u8_has_the_bytes() -> Result<(), Fail> {
    let rt = HostRuntime;
    let items = [("ad", 22), ("é", 33)];
    let items = ByteSliceWithIndices::from_str_slice(&items);
    let bytes = items.to_vec_u8(rt.alloc())?;
    same(&rt, bytes.len(), 2);
    let (key, value) = *bytes.as_slice().last().ok_or("empty")?;
    same(&rt, key, [0xC3, 0xA9].as_slice());
    same(&rt, value, 33);
    Ok(())
}
