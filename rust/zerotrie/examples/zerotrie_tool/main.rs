// Made from crates/zerotrie_tool/src/main.rt by rust/make: edit that.
//! Runs the commands of standard input, which build tries from pairs and look keys up in them.
#![cfg_attr(rustfmt, rustfmt::skip)]
#![deny(unused_must_use)]
#![allow(dead_code, missing_docs, unused_imports, unused_variables)]

mod rstd;
mod zerotrie_session;

use ::zerotrie::zerotrie_all;
use crate::rstd::prelude::*;
use crate::rstd::process::ExitCode;
pub use crate::zerotrie_session::{Noted, RunError, run};

fn main() -> ExitCode {
    let rt = HostRuntime;
    let mut reader = Noted::new(rt.stdin());
    let mut writer = Noted::new(rt.stdout());
    match run(rt.alloc(), &mut reader, &mut writer) {
        Ok(status) => ExitCode::from(status),
        Err(error) => {
            let message = error.message();
            let _ = crate::rstd::eprintln!("{message}");
            ExitCode::from(3)
        }
    }
}
