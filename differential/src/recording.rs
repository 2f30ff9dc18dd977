//! What is recorded of the original: its answers, and of which sources.
use crate::answer::Answer;
use crate::model::Rules;
use crate::recorded::tokens_of;
use crate::respelled::respelled;
use crate::sources::{self, Random};
use crate::{departures, original};
use laqhoncu::{Token, TokenKind};

/// What is recorded of a full read: the original's answer, or the model's at the limits 3 and 5, which the original doesn't have; nothing
/// where a request parts from the original.
pub fn from_original(source: &[u8]) -> Option<Answer> {
    match departures::left_out(source) {
        None => Some(original::read(departures::text(source))),
        Some(why) if why.of_a_request() => None,
        Some(_) => Some(Rules::BASE.full_read(source)),
    }
}

/// The same of a source with runs that a letter follows: the original's answer to another spelling, if there is one.
pub fn from_original_respelled(source: &[u8]) -> Option<Answer> {
    let other = respelled(std::str::from_utf8(source).ok()?, 0).filter(|other| other.runs)?;
    let asked = departures::left_out(other.source.as_bytes()).is_none() && departures::left_out(source).is_some();
    asked.then(|| original::read(&other.source))
}

/// What is recorded of the tokens of an ASCII source: nothing where a request parts from the original.
pub fn tokens_from_original(source: &[u8]) -> Option<String> {
    let text = std::str::from_utf8(source).unwrap();
    departures::left_out_tokens(text).is_none().then(|| tokens_of(source, &mut |_, place| original::token_at(text, place)))
}

/// The same of a source with runs that a letter follows. An Invalid token is the source's own byte.
pub fn tokens_from_original_respelled(source: &[u8]) -> Option<String> {
    let other = respelled(std::str::from_utf8(source).unwrap(), 0).filter(|other| other.runs)?;
    let own = |token: Token| match token.kind {
        TokenKind::Invalid(_) => Token { kind: TokenKind::Invalid(source[token.span.from]), ..token },
        _ => token,
    };
    Some(tokens_of(source, &mut |_, place| original::token_at(&other.source, place).map(own)))
}

/// What is recorded of tokens: telling pairs, dots that belong to no name, letters behind short runs, numbers at their edges, lines.
pub fn token_sources() -> Vec<Vec<u8>> {
    let mut list = Vec::new();
    sources::each(&sources::TELLING_BYTES, 2, &mut |source| list.push(source.to_vec()));
    sources::each(&sources::DOT_BYTES, 2, &mut |source| list.extend(source.contains(&b'.').then(|| source.to_vec())));
    sources::each(&sources::LETTER_BYTES, 3, &mut |source| {
        if let [_, b'b' | b'B' | b'd' | b'D', b'o' | b'O' | b'h' | b'H'] = source {
            list.push(source.to_vec());
        }
    });
    for digits in ["", "0", "1", "7", "8", "9", "af", "2147483647", "2147483648", "7fffffff", "80000000", "17777777777", "20000000000"] {
        for prefix in ["0", "0b", "0o", "0d", "0x", "1", "9"] {
            for suffix in ["", "b", "d", "o", "h", "bh", "D", "H", "g", "B", "bg", "BO", "dh", "Do"] {
                list.push(format!("{prefix}{digits}{suffix}").into_bytes());
            }
        }
    }
    let mut random = Random::new(3);
    for _ in 0..400 {
        let source = sources::grammar(&mut random);
        list.push(sources::changed(&mut random, &source));
        list.push(source);
    }
    list.extend((0..200).map(|_| sources::lettered_line(&mut random).into_bytes()));
    list
}

/// What is recorded of full reads: every cause, with nothing and with a refused number behind it, at the limits too; sources by
/// the grammar, and with letters behind runs; the shipped sample.
pub fn read_sources() -> Vec<Vec<u8>> {
    let mut list = vec![include_bytes!("../../samples/welds.asm").to_vec()];
    for (i, cause) in sources::causes().into_iter().enumerate() {
        // Of the many at the limits, some.
        if cause.len() < 24 || i % 7 == 0 {
            list.push(format!("k equ 2\n{cause}\n{}", sources::REFUSED[i % 4]).into_bytes());
            list.push(format!("{cause} {}", sources::REFUSED[i / 4 % 4]).into_bytes());
            list.push(cause.into_bytes());
        }
    }
    let mut random = Random::new(5);
    for _ in 0..460 {
        list.push(sources::grammar(&mut random));
    }
    list.extend((0..200).map(|_| sources::lettered_line(&mut random).into_bytes()));
    list
}
