//! Where this software parts from the original: the sources that demand 2 leaves out, found from the source by the original's own tokens
//! and reading. Nothing here looks at what the library answers; of the model, only the limits 3 and 5 are asked, which the original doesn't
//! have.
use crate::model::Rules;
use crate::original::{self, Part, Placed};
use laqhoncu::{Refusal, Span, Token, TokenKind};
use mrc_compiler::ast::Line;
use mrc_compiler::lexer::{LiteralKind, PunctuationKind, Token as Original};
use mrc_compiler::parser::ParserError;

/// Why the original is no longer asked.
#[derive(Clone, Copy, Debug, PartialEq, Eq)]
pub enum Why {
    /// 1: above 65,536 bytes.
    Long,
    /// 2: a byte above 127.
    Foreign,
    /// 60: a data line takes a number that its bytes don't hold. RULES 7.6.
    WideNumber,
    /// A dot follows a name directly: RULES 13.2, 14.1.
    DottedName,
    /// An o, O, h or H follows directly behind a run that ends in b, B, d or D, in a number without a prefix (RULES 14.2): demand 2 leaves
    /// out sources with such a run.
    LetterBehind,
    /// 3 or 5: an expression or a `times` too deep, in the base rules' reading.
    Limits,
}

impl Why {
    pub const ALL: [Self; 6] = [Self::Long, Self::Foreign, Self::WideNumber, Self::DottedName, Self::LetterBehind, Self::Limits];

    /// In the lines that `compare` prints.
    pub fn words(self) -> &'static str {
        match self {
            Self::Long => "too long",
            Self::Foreign => "not ASCII",
            Self::WideNumber => "with a wide number in a data line",
            Self::DottedName => "with a dot right behind a name",
            Self::LetterBehind => "with o or h right behind a run that ends in b or d",
            Self::Limits => "too deep",
        }
    }

    /// Whether the rules part from the base rules there; the base rules part from the original in the other cases.
    pub fn of_a_request(self) -> bool {
        matches!(self, Self::WideNumber | Self::DottedName | Self::LetterBehind)
    }

    /// Whether the rules have other tokens there.
    pub fn of_tokens(self) -> bool {
        matches!(self, Self::DottedName | Self::LetterBehind)
    }

    /// Whether an answer is one that such a source gets: a refusal that the original never gives, of two causes the one that the reading
    /// meets first. With another token it may be any.
    pub fn answers<T>(self, answer: &Result<T, Refusal>) -> bool {
        let refused = |numbers: &[u8]| answer.as_ref().is_err_and(|refusal| numbers.contains(&refusal.number));
        match self {
            Self::Long => refused(&[1]),
            Self::Foreign => refused(&[2]),
            Self::WideNumber => refused(&[3, 5, 60]),
            Self::DottedName | Self::LetterBehind => true,
            Self::Limits => refused(&[3, 5]),
        }
    }
}

/// Why the original is not asked for the full read of a source.
pub fn left_out(source: &[u8]) -> Option<Why> {
    unreadable(source).or_else(|| parted(text(source), 0, Part::Whole, || Rules::BASE.full_read(source).err()))
}

/// Why the original is not asked for the statement at a place.
pub fn left_out_statement(source: &[u8], place: usize) -> Option<Why> {
    unreadable(source).or_else(|| parted(text(source), place, Part::OneStatement, || Rules::BASE.statement_read(source, place).err()))
}

/// Why the original is not asked for the token at a place of an ASCII source, where it said this.
pub fn left_out_token(source: &str, place: usize, said: &Result<Token, Refusal>) -> Option<Why> {
    if run_at(source, place).is_some() {
        return Some(Why::LetterBehind);
    }
    let Ok(Token { kind: TokenKind::Identifier, span }) = said else { return None };
    let dot = source[span.to..].starts_with('.')
        && original::token_at(source, span.to).is_ok_and(|token| token.kind == TokenKind::Punctuation(b'.'));
    dot.then_some(Why::DottedName)
}

/// Whether a request parts from the original in a token of an ASCII source, read in turn.
pub fn left_out_tokens(source: &str) -> Option<Why> {
    parting(source, 0, Part::Whole).map(|parting| parting.why)
}

/// Sources that the original takes and no read does.
pub fn unreadable(source: &[u8]) -> Option<Why> {
    if source.len() > 65536 {
        Some(Why::Long)
    } else if !source.is_ascii() {
        Some(Why::Foreign)
    } else {
        None
    }
}

/// A source that every read takes, as the original takes it.
pub fn readable(source: &[u8]) -> Option<&str> {
    unreadable(source).is_none().then(|| text(source))
}

pub fn text(source: &[u8]) -> &str {
    std::str::from_utf8(source).unwrap()
}

/// The causes that are left where a source is readable. What is met before the first token that is another counts first; a limit met at
/// that token itself need not be met there any more, unless it is Invalid as it was.
fn parted(source: &str, place: usize, part: Part, base: impl Fn() -> Option<Refusal>) -> Option<Why> {
    let parting = parting(source, place, part);
    let rest = &source[place..];
    let before = parting.as_ref().map_or(rest.len(), |parting| parting.before.len());
    let limit = |refusal: Refusal| {
        matches!(refusal.number, 3 | 5) && parting.as_ref().is_none_or(|parting| parting.alike(Err(refusal)) == Some(true))
    };
    if wide_number(rest, before, part) {
        Some(Why::WideNumber)
    } else if base().is_some_and(limit) {
        Some(Why::Limits)
    } else {
        parting.map(|parting| parting.why)
    }
}

/// A token of the original's that is another by the rules: a name or a run.
pub struct Parting<'a> {
    pub why: Why,
    span: Span,
    /// Whether a run is Invalid in both readings: `0ado`, and digits that are too many for both bases.
    invalid: bool,
    /// What is read before it, and as which part of a source.
    before: &'a str,
    part: Part,
}

impl Parting<'_> {
    /// Whether the rules give the original's answer, a refusal or the place of the token ahead; None where they may and need not. They do where
    /// it tells neither of the first such token nor of what stands behind it: up to there the tokens are theirs. They don't where it tells of
    /// that token. A name is a longer one, and names nothing; and the dot, at which the original's reading ends at the latest, is no token of
    /// theirs. A run is a longer number, or its first byte is Invalid; the original refuses it, or has that Invalid byte, or a number and then a
    /// name. There its reading ends, but behind `times` it may go on: what it writes holds that number's span, but a refusal behind the name need
    /// not be another. No reading goes beyond a byte that is Invalid, so where it is that in both the answer is the same.
    pub fn alike(&self, answer: Result<usize, Refusal>) -> Option<bool> {
        let (before, behind) = match answer {
            Ok(ahead) => (ahead <= self.span.from, false),
            Err(refusal) if refusal.number == 22 => (self.why == Why::DottedName || self.refused_before(), true),
            Err(Refusal { span, .. }) => (span.from < self.span.from && span.to <= self.span.from, span.from > self.span.to),
        };
        match before || self.invalid {
            true => Some(true),
            false if behind => None,
            false => Some(false),
        }
    }

    /// Whether the original refuses what is before with 22, which has no place.
    fn refused_before(&self) -> bool {
        matches!(original::run(self.before, self.part), Ok(Err(ParserError::InvalidPrefixOperator(..))))
    }
}

/// The first such token from a place on; of one statement, if the original's reading of it gets there.
pub fn parting(source: &str, place: usize, part: Part) -> Option<Parting<'_>> {
    let rest = &source[place..];
    if !rest.contains('.') && !has_letter_behind(rest) {
        return None;
    }
    let (seen, refused) = original::tokens(rest);
    // The original refuses some runs, and has no token there.
    let refused = refused.map(|(_, from)| from);
    let at = |at: usize| {
        let from = seen.get(at).map(|placed| placed.from).or(refused)?;
        let invalid = seen.get(at).is_some_and(|placed| matches!(placed.token, Original::Invalid(..)));
        let (why, to, invalid) = match run_at(rest, from) {
            Some(run) => (Why::LetterBehind, run.to, invalid && run.value.is_none()),
            None if seen.get(at..at + 2).is_some_and(dotted) => (Why::DottedName, seen[at].to, false),
            None => return None,
        };
        let span = Span { from: place + from, to: place + to };
        Some((at, Parting { why, span, invalid, before: &rest[..from], part }))
    };
    let (at, parting) = (0..=seen.len()).find_map(at)?;
    (part == Part::Whole || original::reaches(rest, &seen, at)).then_some(parting)
}

/// Whether two tokens in turn are a name and a dot directly behind it.
fn dotted(pair: &[Placed]) -> bool {
    matches!(pair[0].token, Original::Identifier(_))
        && matches!(pair[1].token, Original::Punctuation(_, PunctuationKind::Dot))
        && pair[0].to == pair[1].from
}

/// Whether o, O, h or H stands behind b, B, d or D somewhere.
pub fn has_letter_behind(source: &str) -> bool {
    source.as_bytes().windows(2).any(|pair| matches!(pair, [b'b' | b'B' | b'd' | b'D', b'o' | b'O' | b'h' | b'H']))
}

/// A run of hexadecimal digits that ends in b, B, d or D, with o, O, h or H directly behind it.
pub struct Run {
    /// Where the letter stands.
    pub to: usize,
    /// The number that it is by the rules: in base 16, if that is at most 2147483647. In base 8 it is none: b and d are no such digits.
    pub value: Option<i32>,
}

/// Such a run, where a number without a prefix begins: `0b` and `0d` are prefixes, with a digit behind them or not.
pub fn run_at(source: &str, from: usize) -> Option<Run> {
    let rest = &source.as_bytes()[from..];
    if !rest.first()?.is_ascii_digit() || rest.starts_with(b"0b") || rest.starts_with(b"0d") {
        return None;
    }
    let length = rest.iter().take_while(|byte| byte.is_ascii_hexdigit()).count();
    if !matches!(rest[length - 1], b'b' | b'B' | b'd' | b'D') {
        return None;
    }
    let value = match rest.get(length)? {
        b'h' | b'H' => i32::from_str_radix(&source[from..from + length], 16).ok(),
        b'o' | b'O' => None,
        _ => return None,
    };
    Some(Run { to: from + length, value })
}

/// Whether a data line that the original reads takes a number above 255 (`db`) or 65,535 (`dw`) before a place. By its tokens such a number has
/// `db` or `dw` before it, with literals and commas between; the source up to and with it is then accepted and ends in a data line.
fn wide_number(source: &str, before: usize, part: Part) -> bool {
    if !source.as_bytes().windows(2).any(|pair| matches!(pair, [b'd' | b'D', b'b' | b'B' | b'w' | b'W'])) {
        return false;
    }
    // the most that the data word before holds
    let mut most = None;
    for placed in original::tokens(source).0 {
        if placed.from >= before {
            return false;
        }
        match placed.token {
            Original::Identifier(_) => {
                most = match source[placed.from..placed.to].to_lowercase().as_str() {
                    "db" => Some(255),
                    "dw" => Some(65535),
                    _ => None,
                }
            }
            Original::Literal(_, LiteralKind::Number(value)) if most.is_some_and(|most| value > most) => {
                if ends_in_data(&source[..placed.to], part) {
                    return true;
                }
            }
            Original::Literal(..) | Original::Punctuation(_, PunctuationKind::Comma) => {}
            _ => most = None,
        }
    }
    false
}

/// Whether the original accepts a source whose last statement is data, as the content of `times` too; of one statement, whether that is the
/// first.
fn ends_in_data(source: &str, part: Part) -> bool {
    let Ok(Ok(lines)) = original::run(source, Part::Whole) else { return false };
    let mut last = lines.last();
    while let Some(Line::Times(_, _, content)) = last {
        last = Some(content);
    }
    matches!(last, Some(Line::Data(..))) && (part == Part::Whole || lines.len() == 1)
}
