//! What a program may do with the errors of builds.

use crate::zerotrie_base::ZeroTrieBuildError;

/// The crate's error can be copied.
impl Copy for ZeroTrieBuildError {}
