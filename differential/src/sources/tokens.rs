//! Sources for the comparison of tokens: rows of what numbers are made of, and numbers at the edges.
use super::{lettered, Random};

/// A text again and again, up to a length.
pub fn repeated(unit: &str, length: usize) -> Vec<u8> {
    unit.bytes().cycle().take(length).collect()
}

/// A source with bytes up to 127 for those above.
pub fn ascii(mut source: Vec<u8>) -> Vec<u8> {
    source.iter_mut().for_each(|b| *b &= 127);
    source
}

/// A row of characters that numbers are made of.
pub fn number_like(random: &mut Random) -> Vec<u8> {
    let mut text = vec![b"0000123456789"[random.below(13)]];
    if random.once_in(2) {
        text.push(b"bodxBODXh"[random.below(9)]);
    }
    let digits: &[u8] = [&b"01"[..], b"01234567", b"0123456789", b"0123456789abcdefABCDEF"][random.below(4)];
    for _ in 0..random.below(36) {
        text.push(digits[random.below(digits.len())]);
    }
    for _ in 0..random.below(3) {
        text.push(b"bBoOdDhHxX 9fg_:."[random.below(17)]);
    }
    text
}

/// A run with o, O, h or H behind it, behind something that may go on in it, and with something behind that may.
pub fn lettered_like(random: &mut Random) -> Vec<u8> {
    let before = random.of(&["", "", "", "", "0", "1", "00", "0b1", "0o7", "0d9", "0x", "a", "_", "12h", "$", "'", ";", "."]);
    let behind = random.of(&["", "", "", " ", "h", "o", "b", "d", "9", "g", ",", "x", ".", "_", "\n"]);
    let text = before.to_string() + &lettered(random) + behind;
    if random.once_in(4) {
        return (text + &lettered(random)).into_bytes();
    }
    text.into_bytes()
}

/// Numbers at the edges: 2147483647 and its neighbours in each base, spelled in each way, with zeros before and things behind.
pub fn numbers(f: &mut impl FnMut(&str)) {
    let edges: [u64; 16] = [0, 1, 2, 7, 8, 9, 10, 15, 16, 255, 2147483646, 2147483647, 2147483648, 2147483649, 4294967295, 4294967296];
    // the hexadecimal ones that end in b, c and d on both sides of 2147483647
    let suffixed = (0x7ffffffb..=0x7ffffffd).chain(0x8000000b..=0x8000000d);
    for value in edges.into_iter().chain([u64::MAX, 1 << 62, 21474836470, 0x7fffffff0]).chain(suffixed) {
        let spelled = [format!("{value:b}"), format!("{value:o}"), format!("{value}"), format!("{value:x}"), format!("{value:X}")];
        for digits in spelled {
            for zeros in ["", "0", "000", &"0".repeat(40)] {
                for prefix in ["", "0b", "0o", "0d", "0x", "0B", "0O", "0D", "0X"] {
                    for suffix in ["", "b", "B", "o", "O", "d", "D", "h", "H"] {
                        for behind in ["", " ", "h", "H", "o", "O", "b", "9", "g", ",", "x", ".", "g."] {
                            f(&format!("{prefix}{zeros}{digits}{suffix}{behind}"));
                        }
                    }
                }
            }
        }
    }
}
