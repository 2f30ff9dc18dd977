//! Words to look up: those that mean something, and those beside them.
use super::each;
use crate::model::OPERATIONS;

/// The spellings of operations, by the model's table.
pub fn spellings() -> Vec<&'static str> {
    OPERATIONS.iter().flat_map(|words| words.split(' ')).collect()
}

/// The other words that mean something.
pub const OTHERS: [&str; 26] = [
    "al", "cl", "dl", "bl", "ah", "ch", "dh", "bh", "ax", "cx", "dx", "bx", "sp", "bp", "si", "di", "es", "cs", "ss", "ds", "byte", "word",
    "equ", "db", "dw", "times",
];

/// Every word up to `most` letters, digits, `_` and dots; every spelling in every mixture of case; every one-letter change of each; each
/// as a part of a longer name.
pub fn all(most: usize, f: &mut impl FnMut(&[u8])) {
    let letters: Vec<[u8; 1]> = b"abcdefghijklmnopqrstuvwxyzABCDEFGHIJKLMNOPQRSTUVWXYZ0123456789_.".iter().map(|b| [*b]).collect();
    let letters: Vec<&[u8]> = letters.iter().map(|b| b.as_slice()).collect();
    each(&letters, most, f);
    for spelling in spellings().into_iter().chain(OTHERS) {
        let mut word = spelling.as_bytes().to_vec();
        for cases in 0..1u32 << word.len() {
            let mixed: Vec<u8> =
                word.iter().enumerate().map(|(i, b)| if cases >> i & 1 == 1 { b.to_ascii_uppercase() } else { *b }).collect();
            f(&mixed);
        }
        for at in 0..=word.len() {
            for byte in 0..128 {
                word.insert(at, byte);
                f(&word);
                word.remove(at);
                if at < word.len() {
                    let old = std::mem::replace(&mut word[at], byte);
                    f(&word);
                    word[at] = old;
                }
            }
            if at < word.len() {
                let old = word.remove(at);
                f(&word);
                word.insert(at, old);
            }
        }
        for behind in ["\0", "\0\0\0", "xxxxxxxx", &"z".repeat(65536), ".x", "..", ".12", ".a.b", ".ax", ".mov", &".".repeat(65536)] {
            f(format!("{spelling}{behind}").as_bytes());
        }
        for before in ["a.", "_.", "ax.", "times.", "a.."] {
            f(format!("{before}{spelling}").as_bytes());
        }
    }
}
