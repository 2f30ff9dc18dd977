//! Random sources, the same in every run: by the grammar, changed ones, noise, lines with a letter behind a run of digits.
use super::TELLING_PIECES;

/// xorshift64*: the same sources in every run.
#[derive(Clone)]
pub struct Random(u64);

impl Random {
    pub fn new(seed: u64) -> Self {
        Self(seed.wrapping_mul(0x9E37_79B9_7F4A_7C15) | 1)
    }

    pub fn bits(&mut self) -> u64 {
        self.0 ^= self.0 >> 12;
        self.0 ^= self.0 << 25;
        self.0 ^= self.0 >> 27;
        self.0.wrapping_mul(0x2545_F491_4F6C_DD1D)
    }

    pub fn below(&mut self, n: usize) -> usize {
        ((self.bits() >> 33) as usize) % n
    }

    /// True once in n.
    pub fn once_in(&mut self, n: usize) -> bool {
        self.below(n) == 0
    }

    pub fn of<'a>(&mut self, list: &[&'a str]) -> &'a str {
        list[self.below(list.len())]
    }
}

const OPERATIONS: [&str; 16] =
    ["mov", "add", "jmp", "Call", "in", "NOP", "rep", "repne", "repnz", "ssb", "int3", "lea", "loopne", "test", "xlatb", "SALC"];
const REGISTERS: [&str; 16] = ["al", "CL", "dl", "bl", "ah", "ch", "dh", "bh", "ax", "cx", "Dx", "bx", "sp", "bp", "si", "di"];
const SEGMENTS: [&str; 4] = ["es", "CS", "ss", "ds"];
#[rustfmt::skip]
const NAMES: [&str; 18] = [
    "a", "w12", "_x", "start", "sal", "xlat", "repe", "movs", "times1", "bytes", "equ", "byte", "h", "times", "w12.a", "ax.b", "a..", "db.",
];
#[rustfmt::skip]
const NUMBERS: [&str; 31] = [
    "0", "1", "10", "255", "256", "65535", "65536", "70000", "2147483647", "2147483648", "0x1F", "0x7fffffff", "0x80000000",
    "0b101", "0o17", "0d9", "101b", "17o", "12h", "0FFh", "0abh", "10bh", "99999999999", "12a", "0B", "0x",
    "12b", "00Bh", "2dH", "1bo", "0dh",
];
/// Numbers that a byte holds, and numbers that a word holds beside them.
const BYTES: [&str; 12] = ["0", "1", "7", "10", "127", "255", "0x1F", "0b101", "17o", "0d9", "0FFh", "011b"];
const WORDS: [&str; 8] = ["256", "4464", "65535", "0xFFFF", "0FFFFh", "177777o", "0x100", "1000d"];
/// Numbers at the edges of both, and beyond.
const EDGES: [&str; 12] =
    ["255", "256", "0x100", "100h", "400o", "0b100000000", "65535", "65536", "0x10000", "10000H", "00065536d", "2147483647"];
const STRINGS: [&str; 8] = ["'c'", "''", "'ab'", "' '", "'weld 12'", "';'", "'open", "'\"'"];
const BLANKS: [&str; 6] = [" ", "  ", "\t", "\r", " \t ", ""];

/// A source by the grammar, with a slip now and then.
pub fn grammar(random: &mut Random) -> Vec<u8> {
    let mut text = String::new();
    let statements = 1 + random.below(4);
    for _ in 0..statements {
        statement(random, &mut text, 0);
        text += random.of(&["\n", "\n", "\n", "\n", "\n\n", "\r\n", " ;note\n", "\n ; times\n", ""]);
    }
    if random.once_in(4) {
        text.truncate(random.below(text.len() + 1));
    }
    text.into_bytes()
}

fn blank(random: &mut Random, text: &mut String) {
    if random.once_in(6) {
        *text += random.of(&BLANKS);
    }
}

fn statement(random: &mut Random, text: &mut String, nesting: usize) {
    blank(random, text);
    match random.below(12) {
        0 => {
            *text += random.of(&NAMES);
            *text += random.of(&[":", " :", "", " "]);
        }
        1 | 2 => {
            let word = random.of(&["db", "dw", "DB", "Dw"]);
            *text += word;
            for _ in 0..random.below(5) {
                *text += random.of(&[" ", ",", " , ", ",,", ""]);
                *text += datum(random, word.ends_with(['w', 'W']));
            }
        }
        3 | 4 => {
            *text += random.of(&["equ", "EQU", "k equ", "k: equ"]);
            *text += " ";
            expression(random, text, 0);
        }
        5 if nesting < 4 => {
            *text += random.of(&["times", "TIMES", "Times"]);
            *text += " ";
            expression(random, text, 1);
            *text += random.of(&[" ", " ", "\n", "\n\n", " ;c\n", ""]);
            statement(random, text, nesting + 1);
        }
        _ => {
            *text += random.of(&OPERATIONS);
            let operands = random.below(4);
            for i in 0..operands.min(2) {
                *text += if i == 0 { " " } else { random.of(&[",", " , ", ", ", ",", " "]) };
                operand(random, text);
            }
        }
    }
    blank(random, text);
}

/// A literal of a data line: mostly one that fits, seldom any number or one at the edges, so that most lines are read.
fn datum(random: &mut Random, wide: bool) -> &'static str {
    match random.below(24) {
        0 => random.of(&NUMBERS),
        1 | 2 => random.of(&EDGES),
        3..=8 => random.of(&STRINGS),
        9..=14 if wide => random.of(&WORDS),
        _ => random.of(&BYTES),
    }
}

fn number_or_string(random: &mut Random) -> String {
    match random.below(12) {
        0..=3 => random.of(&STRINGS).to_string(),
        4 => lettered(random),
        _ => random.of(&NUMBERS).to_string(),
    }
}

fn operand(random: &mut Random, text: &mut String) {
    while random.once_in(5) {
        *text += random.of(&["byte ", "word ", "WORD", "Byte\t"]);
    }
    match random.below(10) {
        0 | 1 => *text += random.of(&REGISTERS),
        2 => *text += random.of(&SEGMENTS),
        3..=6 => {
            *text += "[";
            blank(random, text);
            if random.once_in(4) {
                *text += random.of(&SEGMENTS);
                blank(random, text);
                *text += if random.once_in(8) { "" } else { ":" };
                blank(random, text);
            }
            if !random.once_in(3) {
                *text += random.of(&["bx", "bp", "si", "di", "BX", "Si", "ax", "bl"]);
                blank(random, text);
                if random.once_in(2) {
                    *text += "+";
                    blank(random, text);
                    *text += random.of(&["si", "di", "DI", "bx", "cl", "", "a", "es"]);
                    blank(random, text);
                }
            }
            if random.once_in(2) {
                *text += random.of(&["+", "-", "", " "]);
                expression(random, text, 1);
            }
            *text += if random.once_in(10) { "" } else { "]" };
        }
        7 => {
            expression(random, text, 1);
            *text += random.of(&[":", " : "]);
            expression(random, text, 1);
        }
        _ => expression(random, text, 0),
    }
    blank(random, text);
}

fn expression(random: &mut Random, text: &mut String, depth: usize) {
    match random.below(if depth > 3 { 6 } else { 10 }) {
        0..=2 => *text += random.of(&NUMBERS),
        3 => *text += random.of(&NAMES),
        4 => *text += random.of(&["$", "$$", "$ $", "'c'", "' '"]),
        5 => *text += &number_or_string(random),
        6 => {
            *text += random.of(&["-", "+", "- ", "*"]);
            expression(random, text, depth + 1);
        }
        7 => {
            *text += "(";
            expression(random, text, depth + 1);
            *text += if random.once_in(12) { "" } else { ")" };
        }
        _ => {
            expression(random, text, depth + 1);
            blank(random, text);
            *text += random.of(&["+", "-", "*", "/"]);
            blank(random, text);
            expression(random, text, depth + 1);
        }
    }
}

/// A run that ends in b, B, d or D, with o, O, h or H behind it: binary digits, decimal ones or any before the last; short, about as long as
/// 2147483647 is, and longer. Some are prefixes, which have another rule.
pub fn lettered(random: &mut Random) -> String {
    let digits = random.of(&["01", "0123456789", "0123456789abcdefABCDEF"]).as_bytes();
    let length = match random.below(8) {
        0 => random.below(40),
        1 => 5 + random.below(5),
        2 => 0,
        _ => random.below(4),
    };
    let mut text = String::from(digits[random.below(digits.len().min(10))] as char);
    text.extend((0..length).map(|_| digits[random.below(digits.len())] as char));
    text + random.of(&["b", "B", "d", "D"]) + random.of(&["h", "h", "H", "H", "o", "O"])
}

/// A line with such a run at each place where a number may stand, and with something behind it.
pub fn lettered_line(random: &mut Random) -> String {
    #[rustfmt::skip]
    let heads = [
        "", "equ ", "k equ 1+", "db ", "dw 1,", "DB 'a'", "times ", "times -", "times 2\ntimes 1*", "in ", "mov ax,", "jmp 1:", "in [",
        "in [es:", "in [bx+", "in [bp+si-", "mov byte [", "a: dw ", "rep ", "db 256,", "equ *", "in [es:]", "a.b equ ",
    ];
    #[rustfmt::skip]
    let tails = [
        "", "", "\n", " ", ",", "]", ")", ":2", "+1", "-a", "lt", "lt\n", " nop", "\nnop", " db 1", "a", "b", "1", "h", "r ax,bx", ".x", "x.y", "'c'",
        " 12b", "\n0x80000000", ",256", "],ax", "*1bh", " ; 1bh\n",
    ];
    let line = random.of(&heads).to_string() + &lettered(random) + random.of(&tails);
    if random.once_in(4) {
        return line + &lettered(random);
    }
    line
}

/// One to four small changes: a byte exchanged, dropped, doubled or put in, a stretch moved.
pub fn changed(random: &mut Random, source: &[u8]) -> Vec<u8> {
    let mut text = source.to_vec();
    for _ in 0..1 + random.below(4) {
        let at = random.below(text.len() + 1);
        match random.below(5) {
            0 if at < text.len() => text[at] = byte(random),
            1 if at < text.len() => drop(text.remove(at)),
            2 if at < text.len() => text.insert(at, text[at]),
            3 => {
                let piece = TELLING_PIECES[random.below(TELLING_PIECES.len())];
                text.splice(at..at, piece.iter().copied());
            }
            4 if at < text.len() => {
                let to = at + 1 + random.below((text.len() - at).min(8));
                let piece: Vec<u8> = text.drain(at..to).collect();
                let at = random.below(text.len() + 1);
                text.splice(at..at, piece);
            }
            _ => text.insert(at, byte(random)),
        }
    }
    text
}

fn byte(random: &mut Random) -> u8 {
    match random.below(16) {
        0 => random.bits() as u8 & 127,
        _ => {
            let usual = b"0123456789abcdefoxhABDOH_zZ \n\t\r';:,$.[]()+-*/!\"@";
            usual[random.below(usual.len())]
        }
    }
}

/// Bytes without a plan; one source in sixteen has bytes above 127.
pub fn noise(random: &mut Random, most: usize) -> Vec<u8> {
    let (length, wide) = (random.below(most + 1), random.once_in(16));
    (0..length).map(|_| if wide && random.once_in(8) { random.bits() as u8 } else { byte(random) }).collect()
}
