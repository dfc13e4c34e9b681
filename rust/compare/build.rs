fn main() {
    if std::env::var_os("CARGO_FEATURE_PROVED").is_some() {
        println!("cargo:rerun-if-env-changed=ZEROTRIE_LIB");
        println!("cargo:rustc-link-search=native={}", std::env::var("ZEROTRIE_LIB").unwrap());
        println!("cargo:rustc-link-lib=static=zerotrie");
    }
}
