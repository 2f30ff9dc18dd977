//! Full reads and statement reads: that the sources meet every refusal, which of two comes first, and what each request has changed.
use differential::compare::{on_a_large_stack, Met};
use differential::escapes::escaped;
use differential::listings::records;
use differential::model::{self, Rules};
use differential::patch_call::Call;
use differential::sources::{self, Random};
use laqhoncu::TokenKind;
use std::collections::HashMap;

/// The rules without 60; and the base rules with dots in names.
const ALL_COUNTS: Rules = Rules { counts_fit: false, ..Rules::NOW };
const DOTS: Rules = Rules { dots_in_names: true, ..Rules::BASE };

/// The number that a source is refused with, if it is.
fn refused(rules: Rules, source: &[u8]) -> Option<u8> {
    rules.full_read(source).err().map(|refusal| refusal.number)
}

/// The sources meet every refusal, so a comparison over them says something of each. The limits and 60 part the models nowhere else; for dots
/// in names change only sources that the base rules refuse; a letter behind a run changes accepted sources only where they have a `times`.
#[test]
fn sources_meet_every_refusal() {
    on_a_large_stack(|| {
        // changed by a letter behind a run: refused and refused, accepted and refused, refused and accepted, accepted both times
        let (mut met, mut accepted, mut dotted, mut lettered) = (Met::default(), 0, 0, [0; 4]);
        sources::all(1, &mut |source| {
            let [original, base, now] = [Rules::ORIGINAL, Rules::BASE, Rules::NOW].map(|rules| rules.full_read(source));
            assert!(base == original || base.as_ref().is_err_and(|refusal| matches!(refusal.number, 3 | 5)), "{}", escaped(source));
            let dots = if source.contains(&b'.') { DOTS.full_read(source) } else { base.clone() };
            assert!(dots == base || base.is_err(), "{}", escaped(source));
            let before = ALL_COUNTS.full_read(source);
            if before != dots {
                let index = dots.is_ok() as usize + 2 * before.is_ok() as usize;
                lettered[index] += 1;
                let times = source.to_ascii_lowercase().windows(5).any(|word| word == b"times");
                assert!(dots.is_err() || times, "{}", escaped(source));
            }
            assert!(now == before || now.as_ref().is_err_and(|refusal| refusal.number == 60), "{}", escaped(source));
            dotted += (dots != base && now.is_ok()) as u64;
            match now {
                Ok(_) => accepted += 1,
                Err(refusal) => met.add(&refusal),
            }
        });
        assert!(accepted > 100_000, "only {accepted} sources are accepted");
        met.assert(&[1, 2, 3, 5, 10, 11, 12, 13, 14, 15, 16, 17, 20, 21, 22, 23, 24, 25, 26, 30, 31, 32, 33, 34]);
        assert!(met.times(60) > 10_000, "refusal 60 is met {} times only", met.times(60));
        assert!(dotted > 10_000, "only {dotted} sources are accepted for their dots");
        assert!(lettered.iter().all(|count| *count > 1000), "changed by a letter behind a run: {lettered:?}");
    });
}

/// Of random sources some are refused with 60, and more are accepted, some of them for their dots, and some for a letter behind a run.
#[test]
fn random_sources() {
    let (mut random, mut wide, mut accepted, mut dotted, mut lettered) = (Random::new(8), 0, 0, 0, 0);
    for _ in 0..10_000 {
        let source = sources::grammar(&mut random);
        match refused(Rules::NOW, &source) {
            Some(60) => wide += 1,
            None => accepted += 1,
            _ => continue,
        }
        dotted += refused(Rules { dots_in_names: false, ..Rules::NOW }, &source).is_some() as u64;
        lettered += refused(Rules::NOW.suffix_first(), &source).is_some() as u64;
    }
    let enough = wide > 200 && wide < 1000 && accepted > 2000 && dotted > 200 && lettered > 200;
    assert!(enough, "{wide}, {accepted}, {dotted} and {lettered}");
}

/// Among the sources a number too wide stands before and behind each other cause that a data line can meet: the first one counts.
#[test]
fn orders_on_one_line() {
    let mut wanted: HashMap<&[u8], u8> = [
        ("db 256 12b", 60),
        ("db 12b 256", 30),
        ("db 256,0x80000000", 60),
        ("db,0x80000000 256", 31),
        ("db 256 2147483648", 60),
        ("db 2147483648 256", 15),
        ("db 256,a", 60),
        ("db,a 256", 15),
        ("db 256 'x", 60),
        ("db 'x 256", 26),
        ("db 256-", 60),
        ("db- 256", 15),
        ("db 12b 65536,0x80000000", 30),
        ("db 65536 12b,0x80000000", 60),
        ("db,0x80000000 12b 65536", 31),
        // 16 and 17 are met in an expression, 23 at a line's end
        ("times 'ab' db 256", 17),
        ("times 'c db 256", 16),
        ("db 256\nequ 'ab'\n", 60),
        ("equ 'ab'\ndb 256\n", 17),
        ("db 256\nequ 'c\n", 60),
        ("equ 'c\ndb 256\n", 16),
        ("db 256\ndb\n", 60),
        ("db\ndb 256\n", 23),
        // beside a dot in a name, and in the line above
        ("a. db 256", 60),
        ("k equ. db 256", 60),
        ("a.b equ 5\ndb 256\n", 60),
        ("db 256\na.b equ 5\n", 60),
        ("times a.b\ndb 256\n", 60),
        ("in [es:]a.b\ndb 256\n", 32),
        // beside a letter behind a run
        ("db 256 1bh", 60),
        ("db 1bh 256", 60),
        ("db 12b 1bh", 30),
        ("db 1bh 12b", 30),
        ("db 1bo 256", 15),
        ("db 256 1bo", 60),
        ("db 1bo 12b", 15),
        ("db 12b 1bo", 30),
        ("db,0abh 256dh", 60),
        ("db 1bh a.b", 15),
        ("times 10bh\ndb 256\n", 60),
        ("times 10bh\n12b\n", 30),
        ("times 1bor ax,bx\ndb 256\n", 21),
        ("times 1bhlt\nequ *5\n", 22),
        ("equ *1bo\n12b\n", 22),
        ("in [es:]0abh\n12b\n", 32),
    ]
    .map(|(source, number)| (source.as_bytes(), number))
    .into();
    on_a_large_stack(|| {
        sources::all(1, &mut |source| {
            if let Some(number) = wanted.remove(source) {
                assert_eq!(refused(Rules::NOW, source), Some(number), "{}", escaped(source));
            }
        });
    });
    assert!(wanted.is_empty(), "not among the sources: {:?}", wanted.keys().map(|source| escaped(source)).collect::<Vec<_>>());
}

/// 60 is at a number that its word doesn't hold. Up to and with it the rules without 60 accept the source, whose last line is then data; a literal
/// was due there; and whatever stands behind it, the answer is the same.
#[test]
fn wide_numbers() {
    on_a_large_stack(|| {
        let mut met = [0, 0];
        sources::all(1, &mut |source| {
            let Err(refusal) = Rules::NOW.full_read(source) else { return };
            if refusal.number != 60 {
                return;
            }
            let span = refusal.span;
            let token = Rules::NOW.token(source, span.from).unwrap();
            let TokenKind::Number(value) = token.kind else { panic!("{}: no number", escaped(source)) };
            assert_eq!(token.span, span, "{}", escaped(source));
            let listing = ALL_COUNTS.full_read(&source[..span.to]).unwrap();
            // The last record but those of `times` is the line's data, which ends in the low bytes of the number.
            let records = model::split(&listing);
            let data = records.iter().rfind(|record| !record.starts_with(b"LT")).unwrap();
            assert!(data.starts_with(b"LD"), "{}", escaped(source));
            let before = ALL_COUNTS.full_read(&[&source[..span.from], b"'"].concat()).unwrap_err();
            assert_eq!((before.number, before.span.from), (26, span.from), "{}", escaped(source));
            // The word is the last name before.
            let name = source[..span.from].iter().rposition(|byte| matches!(byte, b'b' | b'B' | b'w' | b'W')).unwrap();
            let byte = matches!(source[name], b'b' | b'B');
            if !source[..span.from].contains(&b'\'') && !source[name + 1..span.from].iter().any(u8::is_ascii_alphanumeric) {
                assert!(value > if byte { 255 } else { 65535 }, "{}", escaped(source));
                met[byte as usize] += 1;
            }
            for behind in ["", " 2b", ",0x80000000", " 'x", " a", "\n2b", ", 1"] {
                let other = [&source[..span.to], behind.as_bytes()].concat();
                assert_eq!(Rules::NOW.full_read(&other), Err(refusal), "{}", escaped(&other));
            }
        });
        assert!(met.iter().all(|count| *count > 1000), "{met:?}");
    });
}

/// Of statement reads, answers change that were no refusals; of patches of refused sources likewise.
#[test]
fn dots_beside_the_full_read() {
    let read = |rules: Rules, source: &str, place| rules.statement_read(source.as_bytes(), place);
    let found = |text: &str, ahead| Ok(Some((records(text), ahead)));
    for (source, place, before, now) in [
        (";a.b", 1, ("ST 1; LL 1 2", 2), ("ST 1; LL 1 4", 4)),
        ("a.b", 0, ("ST 0; LL 0 1", 1), ("ST 0; LL 0 3", 3)),
        ("a.b", 2, ("ST 2; LL 2 3", 3), ("ST 2; LL 2 3", 3)),
        ("rep.x", 0, ("ST 0; LI 0 3 46 0 3 3", 3), ("ST 0; LL 0 5", 5)),
        ("'a.b c'", 1, ("ST 1; LL 1 2", 2), ("ST 1; LL 1 4", 5)),
        // a name that is only ahead
        ("nop\na.b", 0, ("ST 0; LI 0 3 97 0 3 3", 4), ("ST 0; LI 0 3 97 0 3 3", 4)),
        ("a b.c", 0, ("ST 0; LL 0 1", 2), ("ST 0; LL 0 1", 2)),
    ] {
        assert_eq!(read(Rules::BASE, source, place), found(before.0, before.1), "{source:?} at {place}");
        assert_eq!(read(Rules::NOW, source, place), found(now.0, now.1), "{source:?} at {place}");
    }
    let call = Call { source: b"times a.b\nb", listing: b"", place: 10, text: b"c" };
    assert_eq!(Rules::BASE.patch(&call, 99, 99), Ok((b"times a.b\nc".to_vec(), records("ST 10; LL 10 11"))));
    assert_eq!(Rules::NOW.patch(&call, 99, 99).unwrap_err().number, 40);
}

/// Statement reads, each at the place of the token ahead of the last, make the full read.
#[test]
fn statements_make_the_full_read() {
    on_a_large_stack(|| {
        sources::all(1, &mut |source| {
            if source.len() > 4096 {
                return;
            }
            let (mut place, mut listing) = (0, Vec::new());
            let by_statements = loop {
                match Rules::NOW.statement_read(source, place) {
                    Ok(Some((records, ahead))) => {
                        assert!(ahead > place, "{}: no byte forward from {place}", escaped(source));
                        listing.extend(records);
                        place = ahead;
                    }
                    Ok(None) => break Ok(std::mem::take(&mut listing)),
                    Err(refusal) => break Err(refusal),
                }
            };
            assert_eq!(by_statements, Rules::NOW.full_read(source), "{}", escaped(source));
        });
    });
}
