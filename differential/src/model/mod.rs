//! The rules once more, in plain Rust: what RULES say of tokens, words, reads, the patch and `evaluate`. Nothing of the
//! library or of the original is called; of the package only types are used. So the three can disagree, and the comparison sees it.

mod expressions;
mod listing;
mod operands;
mod patch;
mod reader;
mod statements;
mod tokens;
mod words;

pub use listing::{split, well_formed};
pub use patch::{edited, line_end, open_beside};
pub use words::{directive, name, operation, OPERATIONS};

use crate::answer::{Answer, Named, StatementAnswer};
use laqhoncu::{Operator, Refusal, Token};
use reader::Reader;

/// Which rules are followed.
#[derive(Clone, Copy, Debug, PartialEq, Eq)]
pub struct Rules {
    /// The depth of expressions; beyond it 3. RULES 5.3.
    pub depth: usize,
    /// The nesting of `times`; beyond it 5. RULES 7.7.
    pub nesting: usize,
    /// A number above 255 in `db`, or above 65,535 in `dw`, is 60. RULES 7.6.
    pub counts_fit: bool,
    /// A name goes on with dots too. RULES 2.3.
    pub dots_in_names: bool,
    /// The letter behind a run comes before its last character. RULES 2.5.
    pub letter_first: bool,
}

impl Rules {
    /// What the original does, with its panics as 30 to 34.
    pub const ORIGINAL: Self =
        Self { depth: usize::MAX, nesting: usize::MAX, counts_fit: false, dots_in_names: false, letter_first: false };
    /// The base rules. RULES 14.
    pub const BASE: Self = Self { depth: 32, nesting: 16, ..Self::ORIGINAL };
    /// RULES.
    pub const NOW: Self = Self { counts_fit: true, dots_in_names: true, letter_first: true, ..Self::BASE };

    /// The same with RULES 14.2.
    pub fn suffix_first(self) -> Self {
        Self { letter_first: false, ..self }
    }

    /// The token read: 42, 1 and 2 come before the token.
    pub fn token_read(&self, source: &[u8], place: usize) -> Result<Token, Refusal> {
        at_place(source, place)?;
        readable(source)?;
        self.token(source, place)
    }

    /// What a word names, in each way a word can.
    pub fn named(&self, word: &[u8]) -> Named {
        Named { operation: operation(word), name: name(word), directive: directive(word) }
    }

    /// The full read, lent a long enough buffer.
    pub fn full_read(&self, source: &[u8]) -> Answer {
        readable(source)?;
        let mut reader = Reader::begin(*self, source, 0)?;
        while reader.statement()? {}
        Ok(reader.out)
    }

    /// The statement read, lent a long enough buffer.
    pub fn statement_read(&self, source: &[u8], place: usize) -> StatementAnswer {
        at_place(source, place)?;
        readable(source)?;
        let mut reader = Reader::begin(*self, source, place)?;
        let found = reader.statement()?;
        Ok(found.then(|| (std::mem::take(&mut reader.out), reader.place())))
    }
}

/// 42, for a place beyond the end: RULES 9.2.
fn at_place(source: &[u8], place: usize) -> Result<(), Refusal> {
    if place > source.len() {
        return Err(Refusal::at(42, 0, 0));
    }
    Ok(())
}

/// 1 for a source too long, 2 at the first byte above 127: RULES 1.2.
fn readable(source: &[u8]) -> Result<(), Refusal> {
    if source.len() > 65536 {
        return Err(Refusal::at(1, 0, 0));
    }
    match source.iter().position(|byte| *byte > 127) {
        Some(at) => Err(Refusal::at(2, at, at + 1)),
        None => Ok(()),
    }
}

/// The exact result, or 50 or 51: RULES 5.5.
pub fn evaluate(operator: Operator, left: i32, right: i32) -> Result<i32, Refusal> {
    let (left, right) = (left as i64, right as i64);
    let exact = match operator {
        Operator::Add => left + right,
        Operator::Subtract => left - right,
        Operator::Multiply => left * right,
        Operator::Divide if right == 0 => return Err(Refusal::at(51, 0, 0)),
        Operator::Divide => left / right,
    };
    i32::try_from(exact).map_err(|_| Refusal::at(50, 0, 0))
}
