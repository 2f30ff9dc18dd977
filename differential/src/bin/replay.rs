//! Writes what the program `replay` is given and must print, from what is recorded: `cargo run --release --bin replay`, in this folder.
use differential::recorded::replayed;
use std::fs::write;

fn main() {
    let (stdin, stdout) = replayed();
    write("../crates/replay/stdin", stdin).unwrap();
    write("../crates/replay/stdout", stdout).unwrap();
}
