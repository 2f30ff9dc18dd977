//! Links liblaqhoncu.a, which `./build library` writes: from the folder that LAQHONCU_LIBRARY names, or else from where it lies
//! beside this package, in the repository or under the prefix that `install` was given.
use std::env;
use std::path::PathBuf;
use std::process::exit;

const ARCHIVE: &str = "liblaqhoncu.a";

fn main() {
    println!("cargo::rerun-if-env-changed=LAQHONCU_LIBRARY");
    let here = PathBuf::from(env::var_os("CARGO_MANIFEST_DIR").expect("cargo says where the package is"));
    let folders = match env::var_os("LAQHONCU_LIBRARY").filter(|folder| !folder.is_empty()) {
        // A build script runs in the package's folder, so that is where a relative one counts from.
        Some(folder) => vec![here.join(folder)],
        // The repository's root is two folders up, the prefix three.
        None => vec![here.join("../../target/staticlib"), here.join("../../../lib")],
    };
    let Some(folder) = folders.iter().find(|folder| folder.join(ARCHIVE).is_file()) else {
        let looked: Vec<String> = folders.iter().map(|folder| folder.display().to_string()).collect();
        println!("cargo::error={ARCHIVE} is not in {}", looked.join(", nor in "));
        println!("cargo::error=run `./build library` in the repository, or let LAQHONCU_LIBRARY name the folder that has it");
        exit(1);
    };
    // This one alone: cargo takes a file that is not there for a changed one, and would build everything anew each time.
    println!("cargo::rerun-if-changed={}", folder.join(ARCHIVE).display());
    println!("cargo::rustc-link-search=native={}", folder.display());
    println!("cargo::rustc-link-lib=static=laqhoncu");
}
