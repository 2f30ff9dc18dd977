//! Tokens: dots in names, letters behind runs of digits, and that nothing else has changed.
use differential::escapes::escaped;
use differential::model::Rules;
use differential::sources::{self, Random};
use laqhoncu::TokenKind;

/// The tokens of a text, each as that part of it.
fn parts(rules: Rules, text: &str) -> Vec<(TokenKind, &str)> {
    let (mut list, mut place) = (Vec::new(), 0);
    while let Ok(token) = rules.token(text.as_bytes(), place) {
        if token.kind == TokenKind::EndOfFile {
            break;
        }
        list.push((token.kind, &text[token.span.range()]));
        place = token.span.to;
    }
    list
}

/// Dots behind a name's first character, and dots by themselves: RULES 2.3.
#[test]
fn dots_in_tokens() {
    for (text, expected) in [
        ("w12.a", "w12.a"),
        ("a.", "a."),
        ("a..b", "a..b"),
        ("_._", "_._"),
        ("a.5h.", "a.5h."),
        ("a.2b 2", "a.2b| |2"),
        (".a", ".|a"),
        ("..a.", ".|.|a."),
        ("a .b", "a| |.|b"),
        ("a\n.b", "a|\n|.|b"),
        ("1.a", "1|.|a"),
        ("1.a.b", "1|.|a.b"),
        ("0b.1", "0|b.1"),
        ("0b1.a", "0b1|.|a"),
        ("0x.a", "0|x.a"),
        ("0x1f.a", "0x1f|.|a"),
        ("10b.x", "10b|.|x"),
        ("1bh.x", "1bh|.|x"),
        ("1x.h", "1|x.h"),
        ("12h.x", "12h|.|x"),
        ("12x.h", "12|x.h"),
        ("12a.h", "1|2|a.h"),
        ("9.9.", "9|.|9|."),
        ("$.a", "$|.|a"),
        ("'a.b'.c.d", "'a.b'|.|c.d"),
        ("[a.b].c", "[|a.b|]|.|c"),
        ("a.b:c.d", "a.b|:|c.d"),
        ("a.,.b", "a.|,|.|b"),
        ("a.'b.", "a.|'b."),
        ("a.;b.c", "a.|;b.c"),
        ("!.a", "!|.|a"),
    ] {
        let parts = parts(Rules::NOW, text);
        let said: Vec<&str> = parts.iter().map(|(_, text)| *text).collect();
        assert_eq!(said.join("|"), expected, "{text:?}");
        for (kind, text) in parts {
            assert_eq!(kind == TokenKind::Punctuation(b'.'), text == ".", "{text:?}");
            assert_eq!(kind == TokenKind::Identifier, text.starts_with(|c: char| c.is_ascii_alphabetic() || c == '_'), "{text:?}");
        }
    }
}

/// The letter behind a run comes first (RULES 2.5); behind a prefix nothing changes (RULES 2.4).
#[test]
fn letters_behind_runs() {
    for (text, expected) in [
        // base 16, with the letter
        ("10bh", "10bh=267"),
        ("10BH", "10BH=267"),
        ("0abh", "0abh=171"),
        ("0adh", "0adh=173"),
        ("1dh", "1dh=29"),
        ("00bh", "00bh=11"),
        ("0Bh", "0Bh=11"),
        ("0Dh", "0Dh=13"),
        ("00000000000bh", "00000000000bh=11"),
        ("7ffffffbh", "7ffffffbh=2147483643"),
        ("7FFFFFFDH", "7FFFFFFDH=2147483645"),
        ("1bhlt", "1bh=27|lt"),
        ("1bhh", "1bh=27|h"),
        ("1bho", "1bh=27|o"),
        ("1bh1dh", "1bh=27|1dh=29"),
        ("1bh.x", "1bh=27|.|x"),
        ("1bdbdbh", "1bdbdbh=1825755"),
        // Invalid of length 1, and the rest is read anew
        ("1bo", "1|bo"),
        ("1Do", "1|Do"),
        ("9bO", "9|bO"),
        ("0ado", "0|ado"),
        ("10bO", "1|0=0|bO"),
        ("12bo", "1|2|bo"),
        ("100dO", "1|0|0=0|dO"),
        ("8000000bh", "8|000000bh=11"),
        ("8000000dh", "8|000000dh=13"),
        ("17ffffffbh", "1|7ffffffbh=2147483643"),
        ("99999999dh", "9|9|999999dh=161061277"),
        ("0ffffffffbh", "0|ffffffffbh"),
        ("2147483647dh", "2|1|4|7483647dh=1954767997"),
        // the base rules' where another byte is behind
        ("10b", "10b=2"),
        ("10bx", "10b=2|x"),
        ("10b h", "10b=2| |h"),
        ("10b_h", "10b=2|_h"),
        ("10d", "10d=10"),
        ("10dg", "10d=10|g"),
        ("2147483647d", "2147483647d=2147483647"),
        ("2147483648d", "2|147483648d=147483648"),
        ("12h", "12h=18"),
        ("17o", "17o=15"),
        ("18o", "1|8|o"),
        ("0ah", "0ah=10"),
        ("12a", "1|2|a"),
        ("10", "10=10"),
        // prefixes
        ("0bh", "0=0|bh"),
        ("0dh", "0=0|dh"),
        ("0bo", "0=0|bo"),
        ("0do", "0=0|do"),
        ("0b1h", "0b1=1|h"),
        ("0b1bh", "0b1=1|bh"),
        ("0d1bh", "0d1=1|bh"),
        ("0x1bh", "0x1b=27|h"),
        ("0x1do", "0x1d=29|o"),
        ("0o1dh", "0o1=1|dh"),
        ("0b12bh", "0b1=1|2bh=43"),
        ("0o78dh", "0o7=7|8dh=141"),
        ("10bh0bh", "10bh=267|0=0|bh"),
        // no numbers
        ("a1bh", "a1bh"),
        ("_10bh", "_10bh"),
        ("'10bh'", "'10bh'"),
        (";10bh", ";10bh"),
    ] {
        let parts = parts(Rules::NOW, text);
        let said = parts.iter().map(|(kind, part)| match kind {
            TokenKind::Number(value) => format!("{part}={value}"),
            _ => part.to_string(),
        });
        assert_eq!(said.collect::<Vec<_>>().join("|"), expected, "{text:?}");
        for (kind, part) in parts {
            let digit = part.starts_with(|c: char| c.is_ascii_digit());
            assert_eq!(matches!(kind, TokenKind::Number(_) | TokenKind::Invalid(_)), digit, "{text:?}: {part}");
        }
    }
    // 30 is left for a last b with no such letter behind.
    for (text, to) in [("12b", 3), ("0ab", 3), ("12b h", 3), ("12bx", 3), ("9B.", 2), ("0ab,h", 3)] {
        let refusal = Rules::NOW.token(text.as_bytes(), 0).unwrap_err();
        assert_eq!((refusal.number, refusal.span.from, refusal.span.to), (30, 0, to), "{text:?}");
    }
}

/// What RULES 14.2 reads otherwise are runs that end in b, B, d or D with such a letter behind them, but for those that are Invalid in both
/// readings; and no other token.
#[test]
fn only_such_runs_change() {
    let changed_of = |source: &[u8], place: usize| {
        let rest = &source[place..];
        let run: Vec<u8> = rest.iter().copied().take_while(u8::is_ascii_hexdigit).collect();
        let such = rest[..1].iter().all(u8::is_ascii_digit)
            && !matches!(rest, [b'0', b'b' | b'd', ..])
            && matches!((run.last(), rest.get(run.len())), (Some(b'b' | b'B' | b'd' | b'D'), Some(b'h' | b'H' | b'o' | b'O')));
        such.then_some(run)
    };
    // the rows: binary digits, a larger one, decimal digits, another letter; each before h and before o
    let mut rows = [[0; 2]; 4];
    let mut check = |source: &[u8]| {
        for place in 0..source.len() {
            let [before, now] = [Rules::NOW.suffix_first(), Rules::NOW].map(|rules| rules.token(source, place));
            let Some(run) = changed_of(source, place) else {
                assert_eq!(before, now, "{} at {place}", escaped(source));
                continue;
            };
            let (last, digits) = run.split_last().unwrap();
            let octal = matches!(source[place + run.len()], b'o' | b'O');
            let row = match (last.to_ascii_lowercase(), digits) {
                (b'b', digits) => digits.iter().any(|digit| *digit > b'1') as usize,
                (_, digits) => 2 + !digits.iter().all(u8::is_ascii_digit) as usize,
            };
            rows[row][octal as usize] += 1;
            let number = |digits: &[u8], base: u32| u128::from_str_radix(std::str::from_utf8(digits).unwrap(), base).unwrap();
            let fits = |value: u128| i32::try_from(value).ok();
            let token = |value: Option<i32>, length: usize| match value {
                Some(value) => (TokenKind::Number(value), place + length),
                None => (TokenKind::Invalid(source[place]), place + 1),
            };
            let was = match row {
                0 => Some(token(fits(number(digits, 2)), run.len())),
                1 => None,
                2 => Some(token(fits(number(digits, 10)), run.len())),
                _ => Some(token(None, 1)),
            };
            let is = token(if octal { None } else { fits(number(&run, 16)) }, run.len() + 1);
            assert_eq!(before.map(|token| (token.kind, token.span.to)).ok(), was, "{} at {place}", escaped(source));
            assert_eq!(now.map(|token| (token.kind, token.span.to)), Ok(is), "{} at {place}", escaped(source));
        }
    };
    sources::each(&sources::LETTER_BYTES, 5, &mut check);
    let mut random = Random::new(10);
    for _ in 0..100_000 {
        let text = sources::lettered(&mut random);
        if text.len() < 28 {
            check(text.as_bytes());
            check(format!("times {text}lt").as_bytes());
        }
    }
    assert!(rows.iter().flatten().all(|count| *count > 10_000), "{rows:?}");
}

/// A name goes as far as letters, digits, `_` and dots do; every other token is the one without dots in names.
#[test]
fn names_and_other_tokens() {
    let without = Rules { dots_in_names: false, ..Rules::NOW };
    let in_a_name = |byte: &u8| byte.is_ascii_alphanumeric() || matches!(byte, b'_' | b'.');
    let (mut dotted, mut dots) = (0, 0);
    let mut check = |source: &[u8]| {
        for place in 0..=source.len() {
            let token = Rules::NOW.token(source, place);
            if source.get(place).is_some_and(|byte| byte.is_ascii_alphabetic() || *byte == b'_') {
                let token = token.unwrap();
                let length = source[place..].iter().take_while(|byte| in_a_name(byte)).count();
                assert_eq!((token.kind, token.span.to), (TokenKind::Identifier, place + length), "{} at {place}", escaped(source));
                dotted += source[token.span.range()].contains(&b'.') as u64;
            } else {
                assert_eq!(token, without.token(source, place), "{} at {place}", escaped(source));
                dots += token.is_ok_and(|token| token.kind == TokenKind::Punctuation(b'.')) as u64;
            }
        }
    };
    sources::each(&sources::DOT_BYTES, 5, &mut check);
    let mut random = Random::new(9);
    (0..20_000).for_each(|_| check(&sources::grammar(&mut random)));
    assert!(dotted > 10_000 && dots > 10_000, "{dotted} and {dots}");
}

/// What is put behind each cause to be refused as a number is refused so, by every rule; and the pieces that sources are made of have each kind
/// of number.
#[test]
fn refused_numbers() {
    for rules in [Rules::BASE, Rules::NOW] {
        let number = |text: &[u8]| rules.token(text, 0).err().map(|refusal| (refusal.number, refusal.span.to));
        let refused = sources::REFUSED.map(|text| number(text.as_bytes()));
        assert_eq!(refused, [Some((30, 3)), Some((30, 2)), Some((31, 10)), Some((31, 12))]);
        let pieces = sources::TELLING_PIECES.iter().filter_map(|piece| number(piece));
        let lettered = (!rules.letter_first).then_some((30, 3));
        assert_eq!(pieces.collect::<Vec<_>>(), [(30, 3), (31, 10), (30, 2)].into_iter().chain(lettered).collect::<Vec<_>>());
    }
}
