//! Tells cargo where libcapi.a is: in ROUALINT_LIB_DIR, or where `bindings/library` writes it in this repository.

use std::env;
use std::path::PathBuf;

fn main() {
    println!("cargo:rerun-if-env-changed=ROUALINT_LIB_DIR");
    let dir = env::var_os("ROUALINT_LIB_DIR").map_or_else(in_repository, PathBuf::from);
    println!("cargo:rerun-if-changed={}", dir.join("libcapi.a").display());
    println!("cargo:rustc-link-search=native={}", dir.display());
}

fn in_repository() -> PathBuf {
    PathBuf::from(env::var_os("CARGO_MANIFEST_DIR").expect("cargo sets it")).join("../../target/staticlib")
}
