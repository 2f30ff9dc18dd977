//! The reader's state, one token ahead: RULES 4.
use super::listing::put;
use super::words;
use super::Rules;
use laqhoncu::{Name, Refusal, Span, Token, TokenKind};

/// A step of the reading, or the refusal that ends it.
pub type Step<T = ()> = Result<T, Refusal>;

/// Where the reading is; to go back is to take an old one.
#[derive(Clone, Copy)]
pub struct State {
    /// The token ahead: neither whitespace nor comment.
    pub ahead: Token,
    /// Where the token before it ended.
    pub end: usize,
}

pub struct Reader<'a> {
    pub rules: Rules,
    pub source: &'a [u8],
    pub state: State,
    /// The records so far.
    pub out: Vec<u8>,
}

impl<'a> Reader<'a> {
    pub fn begin(rules: Rules, source: &'a [u8], place: usize) -> Step<Self> {
        let state = State { ahead: next(&rules, source, place)?, end: place };
        Ok(Self { rules, source, state, out: Vec::new() })
    }

    /// Takes the token ahead; the next one is read.
    pub fn take(&mut self) -> Step {
        let end = self.state.ahead.span.to;
        self.state = State { ahead: next(&self.rules, self.source, end)?, end };
        Ok(())
    }

    pub fn kind(&self) -> TokenKind {
        self.state.ahead.kind
    }

    pub fn span(&self) -> Span {
        self.state.ahead.span
    }

    /// Where the token ahead begins.
    pub fn place(&self) -> usize {
        self.span().from
    }

    pub fn is(&self, punctuation: u8) -> bool {
        self.kind() == TokenKind::Punctuation(punctuation)
    }

    pub fn at_line_end(&self) -> bool {
        matches!(self.kind(), TokenKind::NewLine | TokenKind::EndOfFile)
    }

    /// The text of the token ahead: its part of the source.
    pub fn text(&self) -> &'a [u8] {
        &self.source[self.span().range()]
    }

    /// The register, segment or size ahead.
    pub fn name(&self) -> Option<Name> {
        match self.kind() {
            TokenKind::Identifier => words::name(self.text()),
            _ => None,
        }
    }

    /// A refusal at the token ahead.
    pub fn refuse<T>(&self, number: u8) -> Step<T> {
        refuse(number, self.span())
    }

    /// From a place to where the last taken token ended.
    pub fn since(&self, from: usize) -> Span {
        Span { from, to: self.state.end }
    }

    /// A record that begins with a span.
    pub fn put(&mut self, mark: &[u8; 2], span: Span, fields: &[u32]) {
        put(&mut self.out, mark, &[span.from as u32, span.to as u32]);
        put(&mut self.out, b"", fields);
    }
}

pub fn refuse<T>(number: u8, span: Span) -> Step<T> {
    Err(Refusal::at(number, span.from, span.to))
}

/// The next token that is neither whitespace nor comment.
fn next(rules: &Rules, source: &[u8], mut place: usize) -> Step<Token> {
    loop {
        let token = rules.token(source, place)?;
        if !matches!(token.kind, TokenKind::Whitespace | TokenKind::Comment) {
            return Ok(token);
        }
        place = token.span.to;
    }
}
