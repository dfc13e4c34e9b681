//! The program over files, `zerotrie`, in plain Rust. The modules are made from the proved sources; this file is written by hand.
#![forbid(unsafe_code)]

#[cfg(not(unix))]
compile_error!("zerotrie replaces files by the means of Unix: there is no form of it for other systems");

mod rstd;
mod zerotrie_cli;
mod zerotrie_files;
mod zerotrie_lines;
mod zerotrie_making;
mod zerotrie_queries;
mod zerotrie_run;
mod zerotrie_words;

use ::zerotrie::{zerotrie_any, zerotrie_build, zerotrie_core};
use ::zerotrie::{zerotrie_index, zerotrie_reverse, zerotrie_sealed, zerotrie_search, zerotrie_sets};

fn main() -> std::process::ExitCode {
    zerotrie_cli::main(rstd::HostRuntime)
}
