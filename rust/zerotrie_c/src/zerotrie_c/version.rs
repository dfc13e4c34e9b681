// Made from crates/zerotrie_c/src/version.rt by rust/make: edit that.
//! The version of the library.

// The version is 0.3.0.
const MAJOR: u32 = 0;

const MINOR: u32 = 3;

const PATCH: u32 = 0;

/// Returns the version of the library as one number, which is 1,002,003 in version 1.2.3.
pub fn zerotrie_version() -> u32 {
    1_000_000 * MAJOR + 1_000 * MINOR + PATCH
}

/// The functions as C calls them: a slice is a pointer and a number of items.
#[allow(unsafe_code)]
mod exports {
    use super::*;

    #[unsafe(no_mangle)]
    extern "C" fn zerotrie_version() -> u32 {
        super::zerotrie_version()
    }
}
