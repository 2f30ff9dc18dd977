//! Writes the module list of the original, each module at its own file: the original is compiled where it is, never copied.
//! `MRC_SOURCE` names the folder that holds `crates/mrc_compiler`; without it, it is ../../../shared/docs/src from here.
use std::path::PathBuf;
use std::{env, fs};

fn main() {
    println!("cargo:rerun-if-env-changed=MRC_SOURCE");
    let here = PathBuf::from(env::var("CARGO_MANIFEST_DIR").unwrap());
    let top = env::var("MRC_SOURCE").map(PathBuf::from).unwrap_or_else(|_| here.join("../../../shared/docs/src"));
    let folder = top.join("crates/mrc_compiler/src");
    let mut list = String::new();
    for name in ["lexer", "operations", "ast", "parser"] {
        let file = folder.join(format!("{name}.rs"));
        println!("cargo:rerun-if-changed={}", file.display());
        if let Ok(file) = file.canonicalize() {
            list += &format!("#[path = {file:?}]\npub mod {name};\n");
            if name == "operations" {
                list += &format!("pub const OPERATIONS: &str = include_str!({file:?});\n");
            }
        }
    }
    fs::write(PathBuf::from(env::var("OUT_DIR").unwrap()).join("modules.rs"), list).unwrap();
}
