//! Sources to compare on; words, and calls of the patch, beside them. Nothing here asks the library or the original.

mod benchmark;
mod causes;
mod long;
pub mod patches;
mod random;
mod rows;
pub mod tokens;
pub mod words;

pub use benchmark::{code_lines, marker_lines, number_lines};
pub use causes::{causes, deepest, REFUSED};
pub use long::long;
pub use random::{changed, grammar, lettered, lettered_line, noise, Random};

use causes::behind_causes;
use rows::{data_lines, data_numbers, data_rows, dotted_lines, dotted_rows, lettered_lines, lettered_rows};

/// Every source of the usual comparison of full reads: over a million, and more by `scale`.
pub fn all(scale: u64, f: &mut impl FnMut(&[u8])) {
    let extra = (scale > 1) as usize;
    each(&TELLING_BYTES, 3 + extra, f);
    each(&TELLING_PIECES, 3 + extra, f);
    each_behind(&["mov ", "mov ax,", "equ "], &OPERAND_PIECES, 4 + extra, f);
    behind_causes(f);
    data_rows(3 + extra, f);
    data_numbers(f);
    data_lines(f);
    dotted_rows(3 + extra, f);
    dotted_lines(f);
    lettered_rows(3 + extra, f);
    lettered_lines(f);
    long(f);
    let mut random = Random::new(1);
    for _ in 0..200_000 * scale {
        let source = grammar(&mut random);
        f(&source);
        f(&changed(&mut random, &source));
    }
    for _ in 0..100_000 * scale {
        f(&noise(&mut random, 40));
    }
    for _ in 0..100_000 * scale {
        f(lettered_line(&mut random).as_bytes());
    }
}

/// Every row of up to `most` pieces, the empty one first.
pub fn each(pieces: &[&[u8]], most: usize, f: &mut impl FnMut(&[u8])) {
    fn go(pieces: &[&[u8]], left: usize, text: &mut Vec<u8>, f: &mut impl FnMut(&[u8])) {
        f(text);
        if left > 0 {
            let length = text.len();
            for piece in pieces {
                text.extend_from_slice(piece);
                go(pieces, left - 1, text, f);
                text.truncate(length);
            }
        }
    }
    go(pieces, most, &mut Vec::new(), f)
}

/// The same behind each of some beginnings.
fn each_behind(heads: &[&str], pieces: &[&[u8]], most: usize, f: &mut impl FnMut(&[u8])) {
    let mut text = Vec::new();
    for head in heads {
        each(pieces, most, &mut |rest| {
            text.clear();
            text.extend_from_slice(head.as_bytes());
            text.extend_from_slice(rest);
            f(&text)
        });
    }
}

/// Bytes at which the lexer decides: every class, every prefix and suffix, the digits at the edges of the bases.
pub const TELLING_BYTES: [&[u8]; 20] =
    [b"0", b"1", b"7", b"8", b"b", b"B", b"d", b"o", b"O", b"x", b"h", b"f", b"g", b"_", b" ", b"\n", b"'", b";", b"$", b"\0"];

/// Bytes that a dot can stand behind: of names, of numbers, of every other class.
pub const DOT_BYTES: [&[u8]; 12] = [b".", b"a", b"_", b"b", b"0", b"1", b"x", b" ", b"\n", b"'", b";", b"$"];

/// Bytes of a run and of what may stand behind it: digits of every base, both suffixes, both letters, a prefix, a dot.
pub const LETTER_BYTES: [&[u8]; 14] = [b"0", b"1", b"9", b"a", b"b", b"B", b"d", b"D", b"h", b"H", b"o", b"O", b"x", b"."];

/// Pieces at which the parser decides.
#[rustfmt::skip]
pub const TELLING_PIECES: [&[u8]; 38] = [
    b"mov ", b"rep ", b"equ ", b"db ", b"dw ", b"times ", b"a", b"a ", b"ax", b"bx", b"si", b"es", b"byte ", b"[", b"]", b"(",
    b")", b"+", b"-", b"*", b":", b",", b"$", b"1", b"12b", b"0x80000000", b"'c'", b"'cd'", b"'", b"'' ", b" ", b"\n", b";",
    b".", b"\r", b"!", b"2b", b"0abh",
];

/// Fewer pieces, for longer rows.
pub const OPERAND_PIECES: [&[u8]; 14] = [b"[", b"]", b"es", b":", b"bx", b"si", b"+", b"-", b"1", b"a", b" ", b"byte ", b",", b"("];
