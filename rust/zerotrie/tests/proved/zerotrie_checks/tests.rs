// Made from crates/zerotrie_checks/src/tests.rt by rust/make: edit that.
use crate::rstd::prelude::*;

mod builder;
mod counting;
mod numbers;
mod readers;
mod refusal;
mod tables;

use crate::rstd::alloc::Global;
use crate::rstd::fmt::Debug;
use crate::rstd::process::Abort;
use crate::rstd::test::Fail;

/// Ends the test if the two differ, and prints both. It is `assert_eq!` in a function, since the
/// proof of what that prints is long and is done at each place.
fn same<T: Debug + PartialEq, H: Abort>(rt: &H, left: T, right: T) {
    assert_eq!(left, right);
}
