//! What the original says of a source, in the form of our answers: its trees as a listing, its errors as refusals, its panics
//! as 30 to 34. Where this software parts from it: see `departures`.

mod names;
mod trees;

pub use names::{named, spellings};

use crate::answer::{moved, Answer};
use crate::listings::Listing;
use laqhoncu::{Refusal, Span, TokenKind};
use mrc_compiler::ast::{Expression, Line};
use mrc_compiler::lexer::{Cursor, LiteralKind, PunctuationKind, Token};
use mrc_compiler::parser::{Parser, ParserError};
use names::register_of;
use std::cell::Cell;
use std::panic::{catch_unwind, AssertUnwindSafe};
use std::sync::Once;
use trees::put_line;

thread_local!(static EXPECTED: Cell<bool> = const { Cell::new(false) });

/// Runs `f`; a panic in it is not reported but given back as its message.
pub fn caught<T>(f: impl FnOnce() -> T) -> Result<T, String> {
    static HOOK: Once = Once::new();
    HOOK.call_once(|| {
        let usual = std::panic::take_hook();
        std::panic::set_hook(Box::new(move |info| {
            if !EXPECTED.get() {
                usual(info)
            }
        }));
    });
    let outer = EXPECTED.replace(true);
    let result = catch_unwind(AssertUnwindSafe(f));
    EXPECTED.set(outer);
    result.map_err(|payload| match payload.downcast::<String>() {
        Ok(message) => *message,
        Err(payload) => payload.downcast_ref::<&str>().unwrap_or(&"").to_string(),
    })
}

/// The number that stands for a panic of the original.
fn number_of_panic(message: &str) -> u8 {
    if message.contains("The requested base in lower than the detected base") {
        30
    } else if message.contains("ParseIntError") {
        31
    } else if message.contains("`Option::unwrap()` on a `None` value") {
        32
    } else if message.contains("unreachable") {
        33
    } else if message == "not yet implemented" {
        34
    } else {
        panic!("the original panicked for a reason that no rule names: {message}")
    }
}

/// A token that the parser sees, with its place; blanks and comments are left out.
#[derive(Clone, Debug)]
pub struct Placed {
    pub token: Token,
    pub from: usize,
    pub to: usize,
}

/// The tokens up to the end of the source or the first refused number, and that one's number and place.
pub fn tokens(source: &str) -> (Vec<Placed>, Option<(u8, usize)>) {
    let mut cursor = Cursor::new(source);
    let mut seen = Vec::new();
    loop {
        let from = cursor.pos();
        match caught(|| cursor.next_token()) {
            Err(message) => return (seen, Some((number_of_panic(&message), from))),
            Ok(Token::EndOfFile(_)) => return (seen, None),
            Ok(Token::Whitespace(_) | Token::Comment(_)) => {}
            Ok(token) => seen.push(Placed { to: from + token.len(), token, from }),
        }
    }
}

/// The end of the refused number that begins at `from`: the whole run for 30, prefix and digits for 31.
pub fn refused_number_end(source: &[u8], number: u8, from: usize) -> usize {
    let (start, base) = match (number, source.get(from + 1)) {
        (31, Some(b'b')) => (from + 2, 2),
        (31, Some(b'o')) => (from + 2, 8),
        (31, Some(b'd')) => (from + 2, 10),
        (31, _) => (from + 2, 16),
        _ => (from, 16),
    };
    start + source[start..].iter().take_while(|b| (**b as char).is_digit(base)).count()
}

fn refusal_of(error: &ParserError) -> Refusal {
    let span = error.span();
    let at = |number| Refusal::at(number, span.start, span.end);
    match error {
        ParserError::Expected(_, expected, _) => at(match expected.as_str() {
            "new line" => 10,
            "comma" => 11,
            "Colon (:) required after segment override." => 12,
            "closing bracket for memory address" => 13,
            "literal expected for data definition" => 15,
            "Unterminated string literal" => 16,
            "Only character literals allowed." => 17,
            text if text.starts_with("closing parenthesis") => 14,
            text => panic!("the original expects {text}, which no rule names"),
        }),
        ParserError::InstructionExpected(..) => at(20),
        ParserError::OperandExpected(..) => at(21),
        ParserError::InvalidPrefixOperator(..) => at(22),
        ParserError::DataDefinitionWithoutData(..) => at(23),
        ParserError::SegmentOrAddressExpected(..) => at(24),
        ParserError::InvalidIndirectEncoding(_, first, second) => {
            Refusal { first: Some(register_of(first)), second: second.as_ref().map(register_of), ..at(25) }
        }
        ParserError::UnterminatedStringLiteral(..) => at(26),
        ParserError::SecondOperandExpected(..) => panic!("an error that the original never gives"),
    }
}

/// The `times` word whose count is this expression: the name before it, parentheses apart.
fn times_before(seen: &[Placed], count: &Expression) -> usize {
    let open = Token::Punctuation(1, PunctuationKind::OpenParenthesis);
    let before = seen.partition_point(|placed| placed.from < count.span().start);
    let word = seen[..before].iter().rposition(|placed| placed.token != open).unwrap();
    assert!(matches!(seen[word].token, Token::Identifier(_)));
    word
}

/// Where a statement begins. The original gives `times` no span.
fn place_of(seen: &[Placed], line: &Line) -> usize {
    match line {
        Line::Times(_, count, _) => seen[times_before(seen, count)].from,
        _ => line.span().start,
    }
}

/// How much of a source is read.
#[derive(Clone, Copy, PartialEq)]
pub enum Part {
    Whole,
    OneStatement,
}

/// The original, run over a source: Err(message) where it panicked.
pub fn run(source: &str, part: Part) -> Result<Result<Vec<Line>, ParserError>, String> {
    caught(|| {
        let mut parser = Parser::new(source);
        let mut lines = Vec::new();
        while let Some(line) = parser.parse_line()? {
            lines.push(line);
            if part == Part::OneStatement {
                break;
            }
        }
        Ok(lines)
    })
}

/// The place of a panic, found from outside: 30 and 31 are at the first refused number; 32 and 33 at the shortest run of
/// tokens that panics so; 34 at the innermost `times` once a content is put behind the source.
fn span_of_panic(source: &str, part: Part, number: u8) -> (usize, usize) {
    let (seen, refused) = tokens(source);
    if let 30 | 31 = number {
        let (found, from) = refused.unwrap();
        assert_eq!(found, number);
        return (from, refused_number_end(source.as_bytes(), number, from));
    }
    if number == 34 {
        let lines = run(&format!("{source}\nx"), part).unwrap().unwrap();
        let mut innermost = lines.last().unwrap();
        loop {
            let Line::Times(_, count, content) = innermost else { panic!("no `times` at the end") };
            match &**content {
                Line::Times(..) => innermost = content,
                _ => {
                    let word = times_before(&seen, count);
                    return (seen[word].from, seen[word].to);
                }
            }
        }
    }
    // The shorter a run of tokens, the less is read: what panics at some length panics at every longer one.
    let panics_so = |end: usize| run(&source[..end], part).is_err_and(|message| number_of_panic(&message) == number);
    let (mut without, mut with) = (0, seen.len());
    while without + 1 < with {
        let middle = (without + with) / 2;
        if panics_so(seen[middle - 1].to) {
            with = middle;
        } else {
            without = middle;
        }
    }
    let last = with - 1; // the `]`, or the second register
    let first = match number {
        32 => last - 3,
        _ => last - 2,
    };
    (seen[first].from, seen[last].to)
}

/// What the original makes of the part of a source from a place on; places count from the source's first byte.
fn read_part(source: &str, place: usize, part: Part) -> Answer {
    let rest = &source[place..];
    match run(rest, part) {
        Ok(Ok(lines)) => {
            let times = lines.iter().any(|line| matches!(line, Line::Times(..)));
            let seen = if times { tokens(rest).0 } else { Vec::new() };
            let mut listing = Listing { bytes: Vec::new(), base: place };
            for line in &lines {
                listing.record("ST", &[(place + place_of(&seen, line)) as u32]);
                put_line(&mut listing, line);
            }
            Ok(listing.bytes)
        }
        Ok(Err(error)) => Err(moved(refusal_of(&error), place)),
        Err(message) => {
            let number = number_of_panic(&message);
            let (from, to) = span_of_panic(rest, part, number);
            Err(moved(Refusal::at(number, from, to), place))
        }
    }
}

/// The full read of an ASCII source, as the original does it.
pub fn read(source: &str) -> Answer {
    read_part(source, 0, Part::Whole)
}

/// The records of the statement at a place, as the original would read it there; empty where none is left.
pub fn read_statement(source: &str, place: usize) -> Answer {
    read_part(source, place, Part::OneStatement)
}

/// Whether the original, reading the first statement of a text, reads its token `n`. It doesn't say so itself; but a refused number makes it
/// panic just when it is read, and put in that token's stead it does.
pub fn reaches(text: &str, seen: &[Placed], n: usize) -> bool {
    let kept = if n == 0 { "" } else { &text[..seen[n - 1].to] };
    run(&format!("{kept} 2b"), Part::OneStatement).is_err_and(|message| number_of_panic(&message) == 30)
}

/// Whether the original, having read the statement at a place, holds the token that begins at `ahead`: it reads that token, and none behind.
pub fn holds(source: &str, place: usize, ahead: usize) -> bool {
    let rest = &source[place..];
    let (seen, _) = tokens(rest);
    let held = seen.partition_point(|placed| place + placed.from < ahead);
    let begins = seen.get(held).map_or(rest.len(), |placed| placed.from);
    place + begins == ahead && reaches(rest, &seen, held) && (held == seen.len() || !reaches(rest, &seen, held + 1))
}

/// The original's token at a place.
pub fn token_at(source: &str, place: usize) -> Result<laqhoncu::Token, Refusal> {
    match caught(|| Cursor::new(&source[place..]).next_token()) {
        Ok(token) => Ok(laqhoncu::Token { kind: kind_of(&token), span: Span { from: place, to: place + token.len() } }),
        Err(message) => {
            let number = number_of_panic(&message);
            Err(Refusal::at(number, place, refused_number_end(source.as_bytes(), number, place)))
        }
    }
}

/// The kind of a token of an ASCII source.
pub fn kind_of(token: &Token) -> TokenKind {
    match token {
        Token::Whitespace(_) => TokenKind::Whitespace,
        Token::Identifier(_) => TokenKind::Identifier,
        Token::Literal(_, LiteralKind::Number(value)) => TokenKind::Number(*value),
        Token::Literal(_, LiteralKind::String(closed)) => TokenKind::Text { closed: *closed },
        Token::Comment(_) => TokenKind::Comment,
        Token::NewLine(_) => TokenKind::NewLine,
        Token::EndOfFile(_) => TokenKind::EndOfFile,
        Token::Invalid(_, character) => TokenKind::Invalid(u8::try_from(*character).unwrap()),
        Token::Punctuation(_, punctuation) => TokenKind::Punctuation(match punctuation {
            PunctuationKind::CloseBracket => b']',
            PunctuationKind::CloseParenthesis => b')',
            PunctuationKind::Colon => b':',
            PunctuationKind::Comma => b',',
            PunctuationKind::Dollar => b'$',
            PunctuationKind::Dot => b'.',
            PunctuationKind::ForwardSlash => b'/',
            PunctuationKind::Minus => b'-',
            PunctuationKind::OpenBracket => b'[',
            PunctuationKind::OpenParenthesis => b'(',
            PunctuationKind::Plus => b'+',
            PunctuationKind::Star => b'*',
        }),
    }
}
