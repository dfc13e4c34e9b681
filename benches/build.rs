//! Takes in the library, the Rust crate and marisa-trie, those that are there.

use std::env::var;
use std::path::Path;
use std::process::Command;

fn main() {
    println!("cargo:rerun-if-changed=build.rs");
    println!("cargo:rerun-if-env-changed=ZEROTRIE_LIB");
    println!("cargo:rerun-if-env-changed=ZEROTRIE_SOURCE");
    // programs that call no function of the library need no archive
    let library = var("ZEROTRIE_LIB").map(|folder| format!("{folder}/libzerotrie.a")).unwrap_or_default();
    if Path::new(&library).exists() {
        println!("cargo:rerun-if-changed={library}");
        println!("cargo:rustc-link-arg-bins={library}");
        // that of plain Rust has Rust's std in it, as this program does
        println!("cargo:rustc-link-arg-bins=-Wl,--allow-multiple-definition");
    }
    println!("cargo:rerun-if-env-changed=ZEROTRIE_PLACES");
    if let Ok(places) = var("ZEROTRIE_PLACES") {
        println!("cargo:rustc-cfg=places=\"{places}\"");
    }
    if let Ok(source) = var("ZEROTRIE_SOURCE") {
        let room = var("OUT_DIR").unwrap();
        assert!(Command::new("./original").args([&source, &room]).status().unwrap().success());
        println!("cargo:rerun-if-changed={source}");
        println!("cargo:rustc-link-search={room}");
        println!("cargo:rustc-cfg=original");
    }
    if var("CARGO_FEATURE_MARISA").is_ok() {
        println!("cargo:rerun-if-changed=marisa.cpp");
        cc::Build::new().cpp(true).opt_level(3).file("marisa.cpp").compile("marisa_calls");
        println!("cargo:rustc-link-arg-bins=-l:libmarisa.a");
    }
}
