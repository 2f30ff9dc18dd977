//! The model beside the original: how often the original is asked, and that the rules part from it where they are said to and nowhere else.
use crate::answer::{Answer, StatementAnswer};
use crate::departures::{left_out, left_out_statement, left_out_token, parting, readable, run_at, text, Parting, Why};
use crate::escapes::escaped;
use crate::listings::shown;
use crate::model::Rules;
use crate::original::{self, Part};
use crate::respelled::{respell_run, respelled, underscored_name, Respelled};
use laqhoncu::{Refusal, Token, TokenKind};

/// How often the original was asked, how often it is left out for each cause, and how often it was asked of a source with `_` for the dots
/// in names, and of one with another spelling for the runs that a letter follows.
#[derive(Clone, Copy, Debug, Default)]
pub struct Asked {
    pub asked: u64,
    pub left_out: [u64; Why::ALL.len()],
    pub underscored: u64,
    pub respelled: u64,
}

impl Asked {
    fn add(&mut self, why: Option<Why>) {
        match why {
            Some(why) => self.left_out[why as usize] += 1,
            None => self.asked += 1,
        }
    }

    fn add_respelled(&mut self, dots: bool, runs: bool) {
        self.underscored += dots as u64;
        self.respelled += runs as u64;
    }

    pub fn left_out(&self, why: Why) -> u64 {
        self.left_out[why as usize]
    }

    /// As `compare` prints it.
    pub fn words(&self) -> String {
        let causes: Vec<String> = Why::ALL.iter().map(|why| format!("{} {}", self.left_out(*why), why.words())).collect();
        let Self { asked, underscored, respelled, .. } = self;
        format!(
            "{asked} asked, all as the model; left out: {}; {underscored} asked with _ for the dots in names, \
             {respelled} asked with such runs spelled otherwise",
            causes.join(", ")
        )
    }

    /// The full read of a source: the model of the original is the original, and the model of the rules parts from it just where it is left
    /// out. With other tokens, the rules answer as they do to the same source respelled, of which the same holds.
    pub fn full_read(&mut self, source: &[u8]) {
        let why = left_out(source);
        self.add(why);
        let now = full_read_beside(source, why);
        if let Some(Respelled { source: other, dots, runs }) = readable(source).and_then(|source| respelled(source, 0)) {
            let other = other.as_bytes();
            let why = left_out(other);
            assert!(!why.is_some_and(Why::of_tokens) && now == full_read_beside(other, why), "{}\nand {}", escaped(source), escaped(other));
            if why.is_none() {
                self.add_respelled(dots, runs);
            }
        }
    }

    /// The same of the statement at a place, with the place of the token ahead.
    pub fn statement_read(&mut self, source: &[u8], place: usize) {
        if place > source.len() {
            return;
        }
        let why = left_out_statement(source, place);
        self.add(why);
        let now = statement_read_beside(source, place, why);
        if !why.is_some_and(Why::of_tokens) {
            return;
        }
        if let Some(Respelled { source: other, dots, runs }) = respelled(text(source), place) {
            let other = other.as_bytes();
            let why = left_out_statement(other, place);
            let said = statement_read_beside(other, place, why);
            assert!(!why.is_some_and(Why::of_tokens) && now == said, "{} at {place}\nand {}", escaped(source), escaped(other));
            if why.is_none() {
                self.add_respelled(dots, runs);
            }
        }
    }

    /// The same of the token at a place of an ASCII source.
    pub fn token(&mut self, source: &str, place: usize) {
        let said = original::token_at(source, place);
        let why = left_out_token(source, place, &said);
        self.add(why);
        let [model, now] = [Rules::ORIGINAL, Rules::NOW].map(|rules| rules.token(source.as_bytes(), place));
        assert!(said == model, "{source:?} at {place}\noriginal  {said:?}\nits model {model:?}");
        let run = run_at(source, place);
        let invalid = said.is_ok_and(|token| matches!(token.kind, TokenKind::Invalid(_)));
        let alike = why.is_none() || run.as_ref().is_some_and(|run| run.value.is_none() && invalid);
        assert!((said == now) == alike, "{source:?} at {place}\nleft out: {why:?}\noriginal  {said:?}\nthe rules {now:?}");
        if why.is_none() {
            return;
        }
        let mut other = source.to_string();
        let there_is = match &run {
            Some(run) => respell_run(&mut other, place, run),
            None => underscored_name(&mut other, said.unwrap().span.to) > place,
        };
        if there_is {
            let said = original::token_at(&other, place);
            self.add_respelled(run.is_none(), run.is_some());
            assert!(same_token(said, now), "{other:?} at {place}\noriginal  {said:?}\nthe rules {now:?}, of {source:?}");
        }
    }

    /// The same of a word.
    pub fn word(&mut self, word: &str) {
        self.asked += 1;
        let said = original::named(word);
        let [model, now] = [Rules::ORIGINAL, Rules::NOW].map(|rules| rules.named(word.as_bytes()));
        assert!(said == model && said == now, "{word:?}\noriginal  {said:?}\nits model {model:?}\nthe rules {now:?}");
    }
}

/// The full read of a source by the original and by the models, which is left out or not. Gives the rules' answer.
fn full_read_beside(source: &[u8], why: Option<Why>) -> Answer {
    let now = Rules::NOW.full_read(source);
    let shown = || escaped(source);
    let Some(text) = readable(source) else {
        assert!(why.unwrap().answers(&now), "{}", shown());
        return now;
    };
    let said = original::read(text);
    let parting = parting(text, 0, Part::Whole);
    let dotted = parting.as_ref().is_some_and(|parting| parting.why == Why::DottedName);
    assert!(!dotted || said.is_err(), "{}: the original accepts a dot", shown());
    let alike = alike(why, parting, said.as_ref().map(|_| source.len()).map_err(|refusal| *refusal));
    assert_parted(&said, &Rules::ORIGINAL.full_read(source), &Rules::BASE.full_read(source), &now, why, alike, shown);
    now
}

/// The same of the statement at a place.
fn statement_read_beside(source: &[u8], place: usize, why: Option<Why>) -> StatementAnswer {
    let now = Rules::NOW.statement_read(source, place);
    let shown = || format!("{} at {place}", escaped(source));
    let Some(text) = readable(source) else {
        assert!(why.unwrap().answers(&now), "{}", shown());
        return now;
    };
    let model = Rules::ORIGINAL.statement_read(source, place);
    if let Ok(Some((_, ahead))) = &model {
        assert!(original::holds(text, place, *ahead), "{}: the original's token ahead is not at {ahead}", shown());
    }
    let parting = parting(text, place, Part::OneStatement);
    let ahead = |found: &Option<(Vec<u8>, usize)>| found.as_ref().map_or(source.len(), |(_, ahead)| *ahead);
    let alike = alike(why, parting, model.as_ref().map(ahead).map_err(|refusal| *refusal));
    let parts = alike.is_some_and(|alike| (now == model) != alike);
    assert!(!parts, "{}: left out: {why:?}\nmodel of the original {model:?}\nthe rules {now:?}", shown());
    let records = |read: &StatementAnswer| read.clone().map(|found| found.map_or(Vec::new(), |(records, _)| records));
    let said = original::read_statement(text, place);
    let base = Rules::BASE.statement_read(source, place);
    assert_parted(&said, &records(&model), &records(&base), &records(&now), why, alike, shown);
    now
}

/// Whether the rules must answer as the original, which answers so; None where they may and need not.
fn alike(why: Option<Why>, parting: Option<Parting>, said: Result<usize, Refusal>) -> Option<bool> {
    match why {
        None => Some(true),
        Some(why) if why.of_tokens() => parting.unwrap().alike(said),
        Some(_) => Some(false),
    }
}

/// Whether two tokens are the same, the byte of an Invalid one aside.
fn same_token(one: Result<Token, Refusal>, other: Result<Token, Refusal>) -> bool {
    let plain = |token: Token| match token.kind {
        TokenKind::Invalid(_) => Token { kind: TokenKind::Invalid(0), ..token },
        _ => token,
    };
    one.map(plain) == other.map(plain)
}

/// The original and the models of it, of the base rules and of the rules.
fn assert_parted(
    said: &Answer,
    original: &Answer,
    base: &Answer,
    now: &Answer,
    why: Option<Why>,
    alike: Option<bool>,
    source: impl Fn() -> String,
) {
    let fail = |what: &str| {
        let answers = [("original", said), ("its model", original), ("the base rules", base), ("the rules", now)];
        let answers: Vec<String> = answers.iter().map(|(who, answer)| format!("{who}\n{}", shown(answer))).collect();
        panic!("{}\n{what}; left out: {why:?}\n{}", source(), answers.concat())
    };
    if said != original {
        fail("the original and its model differ");
    }
    let at_a_limit = |answer: &Answer| answer.as_ref().is_err_and(|refusal| matches!(refusal.number, 3 | 5));
    if !at_a_limit(base) && base != original {
        fail("the base rules part from the original, and no limit is met");
    }
    if !why.is_some_and(Why::of_tokens) && at_a_limit(now) && now != base {
        fail("the rules meet a limit that the base rules do not meet there");
    }
    if alike == Some(true) && now != said {
        fail("the rules part from the original where they must not");
    }
    if alike == Some(false) && now == said {
        fail("a source is left out on which the rules answer as the original");
    }
    if why.is_some_and(|why| !why.answers(now)) {
        fail("a source is left out for another cause");
    }
}
