//! Says whether the original is there to compare with: `cfg(original)` where its sources are.
use std::env;
use std::path::PathBuf;

fn main() {
    println!("cargo:rustc-check-cfg=cfg(original)");
    println!("cargo:rerun-if-env-changed=MRC_SOURCE");
    let here = PathBuf::from(env::var("CARGO_MANIFEST_DIR").unwrap());
    let top = env::var("MRC_SOURCE").map(PathBuf::from).unwrap_or_else(|_| here.join("../../shared/docs/src"));
    let parser = top.join("crates/mrc_compiler/src/parser.rs");
    println!("cargo:rerun-if-changed={}", parser.display());
    if parser.is_file() {
        println!("cargo:rustc-cfg=original");
    }
}
