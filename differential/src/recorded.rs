//! Recorded answers of the original, for where it is not there: a line for each source, its text escaped, a tab, the answer.
use crate::answer::Named;
use crate::escapes::{escaped, unescaped};
use crate::samples::samples;
use laqhoncu::{Directive, Name, Refusal, Token, TokenKind};

pub const TOKENS: &str = include_str!("../recorded/tokens.txt");
pub const WORDS: &str = include_str!("../recorded/words.txt");
pub const READS: &str = include_str!("../recorded/reads.txt");
/// Sources with o or h behind a run that ends in b or d: what the original answers to them with another spelling for each such run.
pub const RESPELLED_TOKENS: &str = include_str!("../recorded/respelled_tokens.txt");
pub const RESPELLED_READS: &str = include_str!("../recorded/respelled_reads.txt");

/// The sources and answers of a recorded list.
pub fn entries(list: &str) -> impl Iterator<Item = (Vec<u8>, &str)> {
    list.lines().map(|line| {
        let (source, answer) = line.split_once('\t').unwrap();
        (unescaped(source), answer)
    })
}

/// What the program `replay` reads, a source a line, and what it must print, each line and the answer: the samples of the rules, and the
/// recorded reads, of respelled sources too.
pub fn replayed() -> (String, String) {
    let (mut stdin, mut stdout) = (String::new(), String::new());
    let recorded = entries(READS).chain(entries(RESPELLED_READS)).map(|(source, answer)| (source, answer.to_string()));
    for (source, answer) in samples().into_iter().chain(recorded) {
        let line = escaped(&source);
        stdin += &format!("{line}\n");
        stdout += &format!("> {line}\n{}\n", answer.replace("; ", "\n"));
    }
    (stdin, stdout)
}

/// The number and the value by which a kind of token is recorded: those of include/laqhoncu.h.
fn flat(kind: TokenKind) -> (u8, i32) {
    match kind {
        TokenKind::Whitespace => (b' ', 0),
        TokenKind::Comment => (b';', 0),
        TokenKind::NewLine => (b'\n', 0),
        TokenKind::EndOfFile => (0, 0),
        TokenKind::Identifier => (b'a', 0),
        TokenKind::Number(value) => (b'0', value),
        TokenKind::Text { closed: true } => (b'\'', 0),
        TokenKind::Text { closed: false } => (b'"', 0),
        TokenKind::Punctuation(byte) => (byte, 0),
        TokenKind::Invalid(byte) => (b'!', byte as i32),
    }
}

/// All tokens of a source, each `kind:length:value`, up to the end of file or a refused number, whose kind is the refusal's number.
pub fn tokens_of(source: &[u8], read: &mut impl FnMut(&[u8], usize) -> Result<Token, Refusal>) -> String {
    let (mut place, mut list) = (0, Vec::new());
    loop {
        let read = read(source, place);
        let ((kind, value), span) = match read {
            Ok(token) => (flat(token.kind), token.span),
            Err(refusal) => ((refusal.number, 0), refusal.span),
        };
        list.push(format!("{kind}:{}:{value}", span.to - place));
        place = span.to;
        if read.is_err() || kind == 0 {
            return list.join(" ");
        }
    }
}

/// What a word names, 255 where it names none: the operation; registers from 0 on, segments from 16, sizes from 20; the directive.
pub fn names_of(word: &[u8], look: &mut impl FnMut(&[u8]) -> Named) -> String {
    let Named { operation, name, directive } = look(word);
    let name = name.map(|name| match name {
        Name::Register(register) => register.number(),
        Name::Segment(segment) => 16 + segment.number(),
        Name::Size(size) => 20 + size.number(),
    });
    let [operation, name, directive] = [operation, name, directive.map(Directive::number)].map(|number| number.unwrap_or(255));
    format!("{operation} {name} {directive}")
}
