//! Prints the tokens of a source on standard input as the proved library reads them, up to a refused number: span, kind, text.
use laqhoncu::TokenKind;
use std::io::Read;

fn main() {
    let (mut source, mut place) = (Vec::new(), 0);
    std::io::stdin().read_to_end(&mut source).unwrap();
    loop {
        let read = laqhoncu::token(&source, place);
        let (span, kind) = match read {
            Ok(token) => (token.span, shown(token.kind)),
            Err(refusal) => (refusal.span, format!("refused {}: {refusal}", refusal.number)),
        };
        println!("{span}\t{kind}\t{}", source[span.range()].escape_ascii());
        if read.map_or(true, |token| token.kind == TokenKind::EndOfFile) {
            return;
        }
        place = span.to;
    }
}

fn shown(kind: TokenKind) -> String {
    match kind {
        TokenKind::Whitespace => "whitespace".to_string(),
        TokenKind::Comment => "comment".to_string(),
        TokenKind::NewLine => "line end".to_string(),
        TokenKind::EndOfFile => "end of file".to_string(),
        TokenKind::Identifier => "name".to_string(),
        TokenKind::Number(value) => format!("number {value}"),
        TokenKind::Text { closed: true } => "text".to_string(),
        TokenKind::Text { closed: false } => "unclosed text".to_string(),
        TokenKind::Punctuation(_) => "punctuation".to_string(),
        TokenKind::Invalid(_) => "invalid".to_string(),
    }
}
