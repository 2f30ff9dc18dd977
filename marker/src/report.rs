//! A refusal as a person reads it: the file, the line and the column, the words, the line itself and a mark under the place.
use laqhoncu::{Directive, Refusal, Span, TokenKind, directive, listing, refusals, token};

/// The most bytes of a line that are shown; of a longer one, those round the place.
const SHOWN: usize = 100;
const BEFORE: usize = 60;

/// Where a line begins in a source, by its number from 1 on; a line begins at 0 and behind each line feed.
pub fn line_start(source: &[u8], line: usize) -> Option<usize> {
    match line {
        0 => None,
        1 => Some(0),
        _ => source.iter().enumerate().filter(|(_, byte)| **byte == b'\n').nth(line - 2).map(|(place, _)| place + 1),
    }
}

pub fn count_lines(source: &[u8]) -> usize {
    1 + source.iter().filter(|byte| **byte == b'\n').count()
}

/// Where the line begins that a place is in.
fn start_of_line(source: &[u8], place: usize) -> usize {
    source[..place].iter().rposition(|byte| *byte == b'\n').map_or(0, |feed| feed + 1)
}

/// The line that begins at a place, without its line feed.
pub fn line_at(source: &[u8], start: usize) -> &[u8] {
    let rest = &source[start..];
    &rest[..rest.iter().position(|byte| *byte == b'\n').unwrap_or(rest.len())]
}

/// The operator that refusal 22 is about; the rules give it no place. A source cut behind an operator is refused with 22 just where
/// that operator, or one above it, is the one, so they are searched by halves.
fn invalid_prefix(source: &[u8]) -> Option<Span> {
    let (mut operators, mut place) = (Vec::new(), 0);
    while let Ok(token) = token(source, place) {
        match token.kind {
            TokenKind::EndOfFile => break,
            TokenKind::Punctuation(b'*' | b'/') => operators.push(token.span),
            _ => {}
        }
        place = token.span.to;
    }
    let is_before = |span: &Span| !matches!(listing(&source[..span.to]), Err(Refusal { number: refusals::INVALID_PREFIX_OPERATOR, .. }));
    operators.get(operators.partition_point(is_before)).copied()
}

/// Refusal 60 with the number's value and the largest one that fits. The data word is the nearest name before the number: between them only
/// literals and commas stand.
fn too_wide(source: &[u8], number: Span) -> Option<String> {
    let mut place = start_of_line(source, number.from);
    let mut data_word = None;
    while place < number.from {
        let token = token(source, place).ok()?;
        if token.kind == TokenKind::Identifier {
            data_word = directive(&source[token.span.range()]);
        }
        place = token.span.to;
    }
    let TokenKind::Number(value) = token(source, number.from).ok()?.kind else { return None };
    let (word, largest) = match data_word? {
        Directive::Db => ("db", u8::MAX.into()),
        Directive::Dw => ("dw", u16::MAX.into()),
        _ => return None,
    };
    Some(format!("the number is {}, and `{word}` takes at most {}", grouped(value), grouped(largest)))
}

/// A refusal at a dot, with where a dot may stand: one that is a token of its own is accepted nowhere.
fn lone_dot(source: &[u8], refused: &Refusal, span: Span) -> Option<String> {
    let is_dot = token(source, span.from).ok()?.kind == TokenKind::Punctuation(b'.');
    is_dot.then(|| format!("{refused}; outside quotes a dot stands only in a name, behind its first character"))
}

/// A refusal at the rest of a hexadecimal number whose first two bytes are a prefix, `0b` or `0d`, with how it is written. A crew's `0dh` is the
/// number 0 and the name `dh`, and `0d5h` is 5 and `h`.
fn prefix_taken(source: &[u8], refused: &Refusal, span: Span) -> Option<String> {
    let mut before = None;
    let mut place = start_of_line(source, span.from);
    while place < span.from {
        let token = token(source, place).ok()?;
        place = token.span.to;
        before = Some(token);
    }
    let number = before.filter(|token| matches!(token.kind, TokenKind::Number(_)) && token.span.to == span.from)?;
    let rest = token(source, span.from).ok().filter(|token| token.kind == TokenKind::Identifier)?;
    let meant = std::str::from_utf8(&source[number.span.from..rest.span.to]).ok()?;
    let is_taken = (meant.starts_with("0b") || meant.starts_with("0d")) && meant.ends_with(['h', 'H']);
    let written = format!("0{meant}");
    let is_number =
        token(written.as_bytes(), 0).is_ok_and(|token| matches!(token.kind, TokenKind::Number(_)) && token.span.to == written.len());
    (is_taken && is_number).then(|| format!("{refused}; `{}` is a prefix: the hexadecimal number is written `{written}`", &meant[..2]))
}

/// A refusal at a digit that is a token of its own, which begins a number that can't be read.
fn no_number(source: &[u8], refused: &Refusal, span: Span) -> Option<String> {
    let is_digit = matches!(token(source, span.from).ok()?.kind, TokenKind::Invalid(b'0'..=b'9'));
    is_digit.then(|| format!("{refused}; this number has digits that its base doesn't have, or is above {}", grouped(i32::MAX)))
}

/// A number with a comma before each three digits.
fn grouped(number: i32) -> String {
    let (mut text, digits) = (String::new(), number.to_string());
    for (i, digit) in digits.chars().enumerate() {
        if i > 0 && (digits.len() - i) % 3 == 0 {
            text.push(',');
        }
        text.push(digit);
    }
    text
}

/// The refusal of a source, or of one line of it as a source of its own, whose first line has the number `line`.
pub fn refusal(name: &str, source: &[u8], line: usize, refused: &Refusal) -> String {
    let place = match refused.number {
        refusals::INVALID_PREFIX_OPERATOR => invalid_prefix(source),
        _ => refused.place(),
    };
    let words = match (refused.number, place) {
        (refusals::NUMBER_TOO_WIDE, Some(span)) => too_wide(source, span),
        (_, Some(span)) => [lone_dot, prefix_taken, no_number].iter().find_map(|hint| hint(source, refused, span)),
        _ => None,
    };
    let words = words.unwrap_or_else(|| refused.to_string());
    match place {
        None => format!("{name}: {words}\n"),
        Some(span) => at(name, source, line, span, &words),
    }
}

/// Words about a span of a source, whose first line has the number `line`.
pub fn at(name: &str, source: &[u8], line: usize, span: Span, words: &str) -> String {
    let from = span.from.min(source.len());
    let start = start_of_line(source, from);
    let (line, column) = (line + count_lines(&source[..from]) - 1, from - start);
    let text = line_at(source, start);
    format!("{name}:{line}:{}: {words}\n{}", column + 1, excerpt(text, column, span.to.saturating_sub(start)))
}

/// A line, and below it a mark under the bytes from..to, one at least.
fn excerpt(line: &[u8], from: usize, to: usize) -> String {
    let line = line.strip_suffix(b"\r").unwrap_or(line);
    let first = if line.len() <= SHOWN { 0 } else { from.saturating_sub(BEFORE) };
    let last = line.len().min(first + SHOWN);
    let (open, close) = (if first > 0 { "..." } else { "" }, if last < line.len() { "..." } else { "" });
    // The place may be behind the line's end: its line feed, or the CR before it.
    let (from, behind) = (from.min(last), from.saturating_sub(last));
    let to = to.clamp(from, last);
    let blanks: String = shown(&line[first..from]).chars().map(|c| if c == '\t' { c } else { ' ' }).collect();
    format!(
        "    {open}{}{close}\n    {}{blanks}{}{}\n",
        shown(&line[first..last]),
        " ".repeat(open.len()),
        " ".repeat(behind),
        "^".repeat(shown(&line[from..to]).chars().count().max(1))
    )
}

/// Bytes as text that does nothing to a terminal.
fn shown(bytes: &[u8]) -> String {
    let visible = |c: char| if c.is_control() && c != '\t' { '?' } else { c };
    String::from_utf8_lossy(bytes).chars().map(visible).collect()
}

#[cfg(test)]
mod tests {
    use super::*;

    fn said(source: &str) -> String {
        refusal("f", source.as_bytes(), 1, &listing(source.as_bytes()).unwrap_err())
    }

    /// Its first line.
    fn words(source: &str) -> String {
        said(source).lines().next().unwrap().to_string()
    }

    #[test]
    fn a_mark_under_the_place() {
        assert_eq!(said("nop\n\tdw 1, 12b, 2\n"), "f:2:8: a binary number has a digit above 1\n    \tdw 1, 12b, 2\n    \t      ^^^\n");
        assert_eq!(said("equ"), "f:1:4: a value or an operand is expected\n    equ\n       ^\n");
        assert_eq!(said("equ \r\nnop"), "f:1:6: a value or an operand is expected\n    equ \n         ^\n");
        assert_eq!(said("mov [ ax],bx"), "f:1:7: these registers make no address: ax\n    mov [ ax],bx\n          ^\n");
        assert_eq!(said("a\x1b[2J"), "f:1:2: an instruction is expected\n    a?[2J\n     ^\n");
    }

    #[test]
    fn a_character_of_several_bytes() {
        assert_eq!(said("; é\nnop"), "f:1:3: a character that is not ASCII\n    ; é\n      ^\n");
    }

    #[test]
    fn no_place() {
        assert_eq!(said(&" ".repeat(65537)), "f: a file may have at most 65,536 bytes\n");
    }

    #[test]
    fn the_operator_without_a_place() {
        let words = "`*` or `/` stands where a value should begin";
        assert_eq!(said("a equ 2*3\nb equ 4/*5 ; 1/2\n*"), format!("f:2:9: {words}\n    b equ 4/*5 ; 1/2\n            ^\n"));
        assert_eq!(said("equ *5"), format!("f:1:5: {words}\n    equ *5\n        ^\n"));
        assert_eq!(said("times 2\n\ndw 1\nequ (/"), format!("f:4:6: {words}\n    equ (/\n         ^\n"));
    }

    #[test]
    fn a_number_that_does_not_fit() {
        let words = |source: &str| words(source).split_once(": ").unwrap().1.to_string();
        assert_eq!(words("db 256"), "the number is 256, and `db` takes at most 255");
        assert_eq!(words("dw 1\n; dw 2\ntimes 2\n dB 'dw' ,, 100h dw 3"), "the number is 256, and `db` takes at most 255");
        assert_eq!(words("db 1\nw: DW 65536"), "the number is 65,536, and `dw` takes at most 65,535");
        assert_eq!([7, 70, 700, 7000, 70000, i32::MAX].map(grouped), ["7", "70", "700", "7,000", "70,000", "2,147,483,647"]);
    }

    #[test]
    fn a_dot_that_is_no_part_of_a_name() {
        let hint = "outside quotes a dot stands only in a name, behind its first character";
        assert_eq!(words("nop\nw12 .a equ 5"), format!("f:2:5: an instruction is expected; {hint}"));
        assert_eq!(words("dw 1.5"), format!("f:1:5: a number or a quoted text is expected; {hint}"));
        assert_eq!(words("equ $.a"), format!("f:1:6: the end of the line is expected; {hint}"));
        assert_eq!(words("w12.a equ ,.5"), "f:1:11: a value or an operand is expected");
    }

    #[test]
    fn a_hexadecimal_number_whose_digits_are_a_prefix() {
        let hint = |prefix: &str, meant: &str| format!("`{prefix}` is a prefix: the hexadecimal number is written `{meant}`");
        assert_eq!(words("nop\ndb 0dh,0ah"), format!("f:2:5: a number or a quoted text is expected; {}", hint("0d", "00dh")));
        assert_eq!(words("dw 1,0b8H"), format!("f:1:7: a number or a quoted text is expected; {}", hint("0b", "00b8H")));
        assert_eq!(words("k equ 0d5h"), format!("f:1:10: the end of the line is expected; {}", hint("0d", "00d5h")));
        assert_eq!(words("mov ax,0bh"), format!("f:1:9: the end of the line is expected; {}", hint("0b", "00bh")));
        for said_so in ["db 00dh,0Dh,0d13,0adh", "dw 10bh"] {
            assert!(listing(said_so.as_bytes()).is_ok());
        }
        for plain in ["db 0d h", "db 0dx", "db 0xh", "db 0dgh", "db 1 dh", "db dh", "db '0'dh", "equ 0bhx", "0dh", "equ 0bffffffffh"] {
            assert!(!words(plain).contains("prefix"), "{plain}");
        }
    }

    #[test]
    fn a_digit_that_begins_no_number() {
        let hint = "this number has digits that its base doesn't have, or is above 2,147,483,647";
        assert_eq!(words("equ 2147483648"), format!("f:1:5: a value or an operand is expected; {hint}"));
        assert_eq!(words("dw 1,1bo"), format!("f:1:6: a number or a quoted text is expected; {hint}"));
        assert_eq!(words("nop\ndw 12a"), format!("f:2:4: a number or a quoted text is expected; {hint}"));
        assert_eq!(words("mov ax,0ffffffffbh"), format!("f:1:8: a value or an operand is expected; {hint}"));
        for plain in ["1", "dw !", "dw 12b", "equ 1 2"] {
            assert!(!words(plain).contains("this number"), "{plain}");
        }
    }

    #[test]
    fn a_long_line() {
        let line = format!("db {} x {}", "1,".repeat(200), "1,".repeat(200));
        let (head, excerpt) = said(&line).split_once('\n').map(|(a, b)| (a.to_string(), b.to_string())).unwrap();
        assert_eq!(head, "f:1:405: a number or a quoted text is expected");
        let (text, mark) = excerpt.trim_end_matches('\n').split_once('\n').unwrap();
        assert!(text.starts_with("    ...") && text.ends_with("...") && text.len() == 4 + 3 + SHOWN + 3);
        assert_eq!(text.as_bytes()[mark.find('^').unwrap()], b'x');
    }

    #[test]
    fn lines_by_number() {
        let start = |line| line_start(b"a\n\nb\n", line);
        assert_eq!([0, 1, 2, 3, 4, 5, usize::MAX].map(start), [None, Some(0), Some(2), Some(3), Some(5), None, None]);
        assert_eq!((count_lines(b""), count_lines(b"a\n\nb\n")), (1, 4));
        assert_eq!((line_at(b"a\nbc\n", 2), line_at(b"a\nbc\n", 5)), (b"bc".as_slice(), b"".as_slice()));
    }
}
