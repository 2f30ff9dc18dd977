//! Sources spelled otherwise, so that no token is another by the rules than by the original: with `_` for the dots in names, and another
//! spelling for the runs of digits that a letter follows.
use crate::departures::{has_letter_behind, run_at, Run};
use crate::original;
use laqhoncu::{Span, Token, TokenKind};

/// A source in which no token is another by the rules, and which they read as they read the one that it was made from.
pub struct Respelled {
    pub source: String,
    /// Whether a dot was exchanged, and whether a run was.
    pub dots: bool,
    pub runs: bool,
}

/// A source with `_` for each dot that belongs to a name, from a place on, and another spelling for each run that a letter follows; None
/// where there is neither, and where a run has no other spelling. No table has a spelling with `_` or with a dot, and no record holds the
/// text of a name or of a number, so the rules read the two alike.
pub fn respelled(source: &str, mut place: usize) -> Option<Respelled> {
    if !source[place..].contains('.') && !has_letter_behind(&source[place..]) {
        return None;
    }
    let mut other = Respelled { source: source.to_string(), dots: false, runs: false };
    let mut before: Option<Token> = None;
    loop {
        if let Some(run) = run_at(&other.source, place) {
            other.runs = true;
            if !respell_run(&mut other.source, place, &run) {
                return None;
            }
            // `0b1` and `0o7` may not go on in the digits that are put behind them.
            let stays = |token: Token| original::token_at(&other.source, token.span.from) == Ok(token);
            if !before.is_none_or(stays) {
                return None;
            }
        }
        // Whatever stands behind a refused number is not read.
        let Ok(token) = original::token_at(&other.source, place) else { break };
        place = match token.kind {
            TokenKind::EndOfFile => break,
            TokenKind::Identifier => underscored_name(&mut other.source, token.span.to),
            _ => token.span.to,
        };
        other.dots |= place > token.span.to;
        before = matches!(token.kind, TokenKind::Number(_)).then_some(token);
    }
    (other.dots || other.runs).then_some(other)
}

/// Puts `_` for the dot that stands where a name ends, and so on where the longer name ends. Gives the end of the longest.
pub fn underscored_name(source: &mut String, mut end: usize) -> usize {
    while source[end..].starts_with('.') {
        source.replace_range(end..end + 1, "_");
        end = original::token_at(source, end).unwrap().span.to;
    }
    end
}

/// Puts another spelling for a run with its letter, as long as it is: decimal, or behind a prefix; where it is no number, a byte that is Invalid
/// everywhere for its first. Whether there is one: the original takes it for that number, and it is no such run itself.
pub fn respell_run(source: &mut String, from: usize, run: &Run) -> bool {
    let Some(value) = run.value else {
        source.replace_range(from..from + 1, "!");
        return true;
    };
    let to = run.to + 1;
    let number = Ok(Token { kind: TokenKind::Number(value), span: Span { from, to } });
    [("", value.to_string()), ("0x", format!("{value:x}")), ("0d", value.to_string())].into_iter().any(|(prefix, digits)| {
        let Some(zeros) = (to - from).checked_sub(prefix.len() + digits.len()) else { return false };
        source.replace_range(from..to, &format!("{prefix}{}{digits}", "0".repeat(zeros)));
        run_at(source, from).is_none() && original::token_at(source, from) == number
    })
}
