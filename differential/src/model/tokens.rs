//! Tokens: the one at a place of a source, and the numbers among them.
use super::Rules;
use laqhoncu::{Refusal, Span, Token, TokenKind};

impl Rules {
    /// The token at a place that is not beyond the end: RULES 2.
    pub fn token(&self, source: &[u8], place: usize) -> Result<Token, Refusal> {
        let rest = &source[place..];
        let Some(first) = rest.first().copied() else {
            return Ok(Token { kind: TokenKind::EndOfFile, span: Span { from: place, to: place } });
        };
        let (kind, length) = match first {
            // RULES 2.2.
            b' ' | b'\t' | b'\r' => (TokenKind::Whitespace, run(rest, |byte| matches!(byte, b' ' | b'\t' | b'\r'))),
            // To before the line feed: RULES 2.2.
            b';' => (TokenKind::Comment, run(rest, |byte| byte != b'\n')),
            b'\n' => (TokenKind::NewLine, 1),
            // A name; no dot begins one: RULES 2.3.
            b'a'..=b'z' | b'A'..=b'Z' | b'_' => (TokenKind::Identifier, run(rest, |byte| self.in_names(byte))),
            b'0'..=b'9' => self.number(rest).map_err(|(number, length)| Refusal::at(number, place, place + length))?,
            // A string, closed or not: RULES 2.6.
            b'\'' => {
                let inside = run(&rest[1..], |byte| byte != b'\'' && byte != b'\n');
                let closed = rest.get(1 + inside) == Some(&b'\'');
                (TokenKind::Text { closed }, 1 + inside + closed as usize)
            }
            b']' | b')' | b':' | b',' | b'$' | b'.' | b'/' | b'-' | b'[' | b'(' | b'+' | b'*' => (TokenKind::Punctuation(first), 1),
            _ => (TokenKind::Invalid(first), 1),
        };
        Ok(Token { kind, span: Span { from: place, to: place + length } })
    }

    /// What a name may hold after its first character.
    fn in_names(&self, byte: u8) -> bool {
        byte.is_ascii_alphanumeric() || byte == b'_' || (self.dots_in_names && byte == b'.')
    }

    /// The number at the start of a text, and its length; or its refusal and the length of what that is about.
    fn number(&self, text: &[u8]) -> Result<(TokenKind, usize), (u8, usize)> {
        let digits_of = |base: u32, text: &[u8]| run(text, |byte| (byte as char).is_digit(base));
        // With a prefix, or the single `0` where no digit follows it; 31 at prefix and digits: RULES 2.4.
        let prefixed = match text {
            [b'0', b'b', ..] => Some(2),
            [b'0', b'o', ..] => Some(8),
            [b'0', b'd', ..] => Some(10),
            [b'0', b'x', ..] => Some(16),
            _ => None,
        };
        if let Some(base) = prefixed {
            let digits = digits_of(base, &text[2..]);
            return match value(&text[2..2 + digits], base) {
                _ if digits == 0 => Ok((TokenKind::Number(0), 1)),
                Some(value) => Ok((TokenKind::Number(value), 2 + digits)),
                None => Err((31, 2 + digits)),
            };
        }
        // Without a prefix: the run's last character, then the letter behind the run, then base 10 (RULES 14.2). RULES 2.5 exchanges the
        // two tests.
        let whole = digits_of(16, text);
        let letter = match text.get(whole) {
            Some(b'o' | b'O') => Some((whole, 8, whole + 1)),
            Some(b'h' | b'H') => Some((whole, 16, whole + 1)),
            _ => None,
        };
        let suffix = match text[whole - 1] {
            b'b' | b'B' => Some((whole - 1, 2, whole)),
            b'd' | b'D' => Some((whole - 1, 10, whole)),
            _ => None,
        };
        let found = if self.letter_first { letter.or(suffix) } else { suffix.or(letter) };
        let (digits, base, length) = found.unwrap_or((whole, 10, whole));
        // 30, at the run with its suffix: RULES 2.5.
        if base == 2 && text[..digits].iter().any(|byte| *byte > b'1') {
            return Err((30, length));
        }
        // Invalid, one byte, where it is no number or too large: RULES 2.5.
        Ok(match value(&text[..digits], base) {
            Some(value) => (TokenKind::Number(value), length),
            None => (TokenKind::Invalid(text[0]), 1),
        })
    }
}

/// How many bytes at the start are of a kind.
fn run(text: &[u8], of_kind: impl Fn(u8) -> bool) -> usize {
    text.iter().position(|byte| !of_kind(*byte)).unwrap_or(text.len())
}

/// The value of digits, unless one doesn't fit the base or it exceeds 2147483647.
fn value(digits: &[u8], base: u32) -> Option<i32> {
    let mut sum = 0u64;
    for digit in digits {
        sum = sum * base as u64 + (*digit as char).to_digit(base)? as u64;
        if sum > 2147483647 {
            return None;
        }
    }
    Some(sum as i32)
}
