//! Links the proved static libraries named in `libraries`. Cargo doesn't make them: only `rt` proves.

use std::env;
use std::path::PathBuf;

fn main() {
    let folder = PathBuf::from(env::var_os("CARGO_MANIFEST_DIR").expect("cargo sets it")).join("../target/staticlib");
    println!("cargo::rerun-if-changed=libraries");
    println!("cargo::rustc-link-search=native={}", folder.display());
    for name in include_str!("libraries").lines() {
        let archive = folder.join(format!("lib{name}.a"));
        println!("cargo::rerun-if-changed={}", archive.display());
        println!("cargo::rustc-link-lib=static={name}");
        if !archive.exists() {
            println!("cargo::error=lib{name}.a is missing: make it by `tools/static_library {name}` at the top");
        }
    }
}
