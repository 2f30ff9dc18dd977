//! What a digit is worth, by its place in a row of digits: each of the 22 characters at each place of a number where it may stand, in every form of
//! a number; and what becomes of digits that the base does not have, and of all other bytes behind a prefix.
use laqhoncu::refusals::BINARY_LARGER_DIGIT;
use laqhoncu::{Refusal, Span, Token, TokenKind, token};

const DIGITS: &[u8; 22] = b"0123456789abcdefABCDEF";

/// What stands before the digits that are tried and behind them, and the base. Without a prefix the first digit is no letter, and a last b or d
/// would be a suffix, but before o or h.
const FORMS: [(&str, &str, usize); 17] = [
    ("0b", "", 2),
    ("0o", "", 8),
    ("0d", "", 10),
    ("0x", "", 16),
    ("1", "1b", 2),
    ("1", "1B", 2),
    ("1", "1o", 8),
    ("1", "1O", 8),
    ("1", "1d", 10),
    ("1", "1D", 10),
    ("1", "1h", 16),
    ("1", "1H", 16),
    ("1", "o", 8),
    ("1", "O", 8),
    ("1", "h", 16),
    ("1", "H", 16),
    ("1", "1", 10),
];

fn worth(c: u8) -> Option<usize> {
    b"0123456789abcdef".iter().position(|digit| *digit == c.to_ascii_lowercase())
}

fn is(source: &[u8], kind: TokenKind, to: usize) {
    let expected = Ok(Token { kind, span: Span { from: 0, to } });
    assert_eq!(token(source, 0), expected, "{}", source.escape_ascii());
}

fn number(value: usize) -> TokenKind {
    TokenKind::Number(value as i32)
}

#[test]
fn each_digit_at_each_place() {
    for (before, behind, base) in FORMS {
        let digits: Vec<(u8, usize)> = DIGITS.iter().map(|c| (*c, worth(*c).unwrap())).filter(|(_, worth)| *worth < base).collect();
        for (a, first) in &digits {
            for (b, second) in &digits {
                for (c, third) in &digits {
                    let source = [before.as_bytes(), &[*a, *b, *c], behind.as_bytes()].concat();
                    let tried = (first * base + second) * base + third + if before == "1" { base.pow(3) } else { 0 };
                    let value = if behind.starts_with('1') { tried * base + 1 } else { tried };
                    is(&source, number(value), source.len());
                }
            }
        }
    }
}

#[test]
fn each_digit_that_the_base_does_not_have() {
    for c in DIGITS.iter().copied() {
        let worth = worth(c).unwrap();
        if worth >= 2 {
            let refused = token(&[b'1', c, b'b'], 0);
            assert_eq!(refused, Err(Refusal::at(BINARY_LARGER_DIGIT, 0, 3)), "1{}b", c as char);
        }
        if worth >= 8 {
            is(&[b'1', c, b'1', b'o'], TokenKind::Invalid(b'1'), 1);
            is(&[b'1', c, b'o'], TokenKind::Invalid(b'1'), 1);
        }
        if worth >= 10 {
            is(&[b'1', c, b'1', b'd'], TokenKind::Invalid(b'1'), 1);
            is(&[b'1', c, b'1'], TokenKind::Invalid(b'1'), 1);
        }
    }
}

#[test]
fn every_byte_behind_a_digit() {
    for (prefix, _, base) in &FORMS[..4] {
        for c in 0..=255 {
            let source = [prefix.as_bytes(), &[b'1', c]].concat();
            match worth(c).filter(|worth| worth < base) {
                Some(worth) => is(&source, number(base + worth), 4),
                None => is(&source, number(1), 3),
            }
        }
    }
}

#[test]
fn every_byte_behind_a_run_that_ends_in_b_or_d() {
    for (run, hexadecimal) in [("1b", 0x1b), ("1B", 0x1b), ("1d", 0x1d), ("1D", 0x1d)] {
        for c in 0..=255 {
            let source = [run.as_bytes(), &[c]].concat();
            match c {
                b'h' | b'H' => is(&source, number(hexadecimal), 3),
                b'o' | b'O' => is(&source, TokenKind::Invalid(b'1'), 1),
                _ if worth(c).is_some() => {} // belongs to the run
                _ => is(&source, number(1), 2),
            }
        }
    }
}
