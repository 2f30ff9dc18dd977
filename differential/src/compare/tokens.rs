//! Compares a token read with the model's, and the model's with the original's.
use super::Met;
#[cfg(original)]
use crate::beside::Asked;
use crate::model::Rules;
use crate::sources::tokens::{ascii, lettered_like, number_like, numbers, repeated};
use crate::sources::{self, Random};
use laqhoncu::{Refusal, Token, TokenKind};

/// A token read at a place of a source.
pub trait TokenRead: FnMut(&[u8], usize) -> Result<Token, Refusal> {}
impl<F: FnMut(&[u8], usize) -> Result<Token, Refusal>> TokenRead for F {}

pub struct Compare<F> {
    rules: Rules,
    ours: F,
    pub sources: u64,
    pub tokens: u64,
    /// tokens that RULES 14.2 reads otherwise
    pub lettered: u64,
    pub met: Met,
    #[cfg(original)]
    pub asked: Asked,
}

impl<F: TokenRead> Compare<F> {
    pub fn new(rules: Rules, ours: F) -> Self {
        Self {
            rules,
            ours,
            sources: 0,
            tokens: 0,
            lettered: 0,
            met: Met::default(),
            #[cfg(original)]
            asked: Asked::default(),
        }
    }

    fn at(&mut self, source: &str, place: usize) -> Result<Token, Refusal> {
        let expected = self.rules.token(source.as_bytes(), place);
        #[cfg(original)]
        self.asked.token(source, place);
        let said = (self.ours)(source.as_bytes(), place);
        assert!(said == expected, "{source:?} at {place}\nexpected {expected:?}\nsaid     {said:?}");
        self.tokens += 1;
        let digit = source.as_bytes().get(place).is_some_and(u8::is_ascii_digit);
        self.lettered += (digit && expected != self.rules.suffix_first().token(source.as_bytes(), place)) as u64;
        expected
    }

    /// The tokens of a source in turn, the end of file among them, up to a refused number. Panics where the two differ.
    pub fn source(&mut self, source: &[u8]) {
        let source = std::str::from_utf8(source).expect("ASCII");
        self.sources += 1;
        let mut place = 0;
        loop {
            let token = match self.at(source, place) {
                Ok(token) => token,
                Err(refusal) => return self.met.add(&refusal),
            };
            if token.kind == TokenKind::EndOfFile {
                return assert_eq!(place, source.len(), "an end of file before the end: {source:?}");
            }
            assert!(token.span.to > place, "a token of no bytes: {source:?} at {place}");
            place = token.span.to;
        }
    }

    /// The token at every place of a source, the inside of tokens among them.
    pub fn every_place(&mut self, source: &[u8]) {
        let source = std::str::from_utf8(source).expect("ASCII");
        self.sources += 1;
        for place in 0..=source.len() {
            let _ = self.at(source, place);
        }
    }

    /// Every source of the usual run: over six million, and many times that by `scale`. `scale` 1 takes some seconds.
    pub fn all(&mut self, scale: u64) {
        sources::each(&sources::TELLING_BYTES, 5, &mut |source| self.source(source));
        sources::each(&sources::DOT_BYTES, 5, &mut |source| self.source(source));
        sources::each(&sources::LETTER_BYTES, if scale > 1 { 6 } else { 5 }, &mut |source| self.source(source));
        let bytes: Vec<[u8; 1]> = (0..128).map(|b| [b]).collect();
        let bytes: Vec<&[u8]> = bytes.iter().map(|b| b.as_slice()).collect();
        sources::each(&bytes, 2, &mut |source| self.every_place(source));
        numbers(&mut |source| if source.len() < 20 { self.every_place(source.as_bytes()) } else { self.source(source.as_bytes()) });
        for length in [65535, 65536] {
            #[rustfmt::skip]
            let units = [
                "a", "0", "f", " ", "\t\r", "\n", ";", "$", "\u{7f}", "a1_ ", "0x1 ", "'\n", "1b", ".", "a.", "a. ", "_..", "1.", "0b.1 ", "1bh",
                "0abH ", "1dO ", "1bh.", "0bh",
            ];
            for unit in units {
                self.source(&repeated(unit, length));
            }
            #[rustfmt::skip]
            let ends = [
                ("'", "'"), ("'", ""), ("'", "\n"), (";", "\n"), ("0x", ""), ("a.", "."), ("1.", ""), ("", "bh"), ("", "DH"), ("1", "dh"),
                ("", "7ffffffbh"), ("", "b"), ("0x", "bh"),
            ];
            for (open, close) in ends {
                let middle = repeated("0", length - open.len() - close.len());
                self.source(&[open.as_bytes(), &middle, close.as_bytes()].concat());
            }
        }
        // The whole rest is looked through at each quote, and the whole run at each digit of a number that is too large.
        for unit in ["1", "'", "''", "'a' ", "'a'\n"] {
            self.source(&repeated(unit, 4096));
        }
        for behind in ["bo", "dO", "bh", "dH"] {
            self.source(&[repeated("1", 4094).as_slice(), behind.as_bytes()].concat());
        }
        let mut random = Random::new(2);
        for _ in 0..400_000 * scale {
            let source = sources::grammar(&mut random);
            self.source(&source);
            let source = sources::changed(&mut random, &source);
            self.source(&source);
        }
        for i in 0..400_000 * scale {
            let source = ascii(sources::noise(&mut random, 24));
            if i % 4 == 0 {
                self.every_place(&source)
            } else {
                self.source(&source)
            }
        }
        for _ in 0..400_000 * scale {
            let source = number_like(&mut random);
            self.source(&source);
        }
        for i in 0..400_000 * scale {
            let source = lettered_like(&mut random);
            if i % 8 == 0 {
                self.every_place(&source)
            } else {
                self.source(&source)
            }
        }
    }

    /// A call, which tests the place and the source before it reads the token. Panics where the two differ.
    fn call(&mut self, source: &[u8], place: usize) {
        let (expected, said) = (self.rules.token_read(source, place), (self.ours)(source, place));
        let text = String::from_utf8_lossy(source);
        assert!(said == expected, "{text:?} at {place}\nexpected {expected:?}\nsaid     {said:?}");
        #[cfg(original)]
        if place <= source.len() && crate::departures::unreadable(source).is_none() {
            self.asked.token(&text, place);
        }
        self.tokens += 1;
        self.lettered += (expected != self.rules.suffix_first().token_read(source, place)) as u64;
        if let Err(refusal) = expected {
            self.met.add(&refusal);
        }
    }

    /// Calls at places of many sources, and beyond their ends.
    pub fn calls(&mut self) {
        let mut turn = 0;
        sources::all(1, &mut |source| {
            turn += 1;
            if source.len() > 4096 {
                let end = source.len();
                [0, 1, end / 2, end - 1, end, end + 1, usize::MAX].into_iter().for_each(|place| self.call(source, place));
            } else if turn % 16 == 0 && source.len() < 64 {
                (0..source.len() + 3).chain([usize::MAX]).for_each(|place| self.call(source, place));
            }
        });
    }
}
