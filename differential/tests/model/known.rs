//! The model says what is known beforehand: the samples of the rules, and the recorded answers; and the files of `replay` are those.
use differential::compare::on_a_large_stack;
use differential::escapes::{escaped, unescaped};
use differential::listings::one_line;
use differential::model::Rules;
use differential::samples::{in_room, samples};
use differential::{recorded, sources};

#[test]
fn samples_of_the_rules() {
    for (source, expected) in samples() {
        assert_eq!(one_line(&in_room(Rules::NOW.full_read(&source))), expected, "{}", escaped(&source));
    }
    for (source, expected) in [
        ("mov ax,[ es : ] ", "REF 32 7 15 255 255"),
        ("mov ax,[es:]12b", "REF 30 12 15 255 255"),
        ("mov ax,[es:]0abh", "REF 32 7 12 255 255"),
        ("times 2\ntimes (3) ; open", "REF 34 8 13 255 255"),
        ("times times+5", "REF 34 0 5 255 255"),
        ("a\ntimes (2) b", "ST 0; LL 0 1; ST 2; VC 9 10 2; LL 12 13; LT 0 0; END 6"),
        ("in [si+bx]", "REF 25 4 9 14 11"),
        ("in [es: ax]", "REF 25 8 7 8 255"),
        ("in-1", "ST 0; VC 3 4 1; PF 2 4 1; OI 2 4; LI 0 4 4 1 2 4; END 5"),
        ("db 1,,", "ST 0; LD 0 6 1 1; END 2"),
    ] {
        assert_eq!(one_line(&Rules::NOW.full_read(source.as_bytes())), expected, "{source:?}");
    }
}

/// The base rules answer the samples as the rules do, but for those that they accept with the low bytes, for some with a letter behind
/// a run, and for some with a dot, each of which they refuse.
#[test]
fn samples_of_the_base() {
    let mut parted = [0, 0, 0];
    for (source, expected) in samples() {
        let said = one_line(&in_room(Rules::BASE.full_read(&source)));
        if expected.starts_with("REF 60 ") {
            parted[0] += 1;
            assert_ne!(said, expected, "{}", escaped(&source));
        } else if said != one_line(&in_room(Rules { letter_first: true, ..Rules::BASE }.full_read(&source))) {
            parted[2] += 1;
            assert_ne!(said, expected, "{}", escaped(&source));
        } else if said != expected {
            parted[1] += 1;
            assert!(source.contains(&b'.') && said.starts_with("REF "), "{}\n{expected}\n{said}", escaped(&source));
        }
    }
    assert_eq!(parted, [23, 29, 43]);
    assert_eq!(one_line(&Rules::BASE.full_read(b"dw 70000")), "ST 0; LD 0 8 2 112 17; END 2");
    assert_eq!(one_line(&Rules::BASE.full_read(b"db 256,12b")), "REF 30 7 10 255 255");
    assert_eq!(one_line(&Rules::BASE.full_read(b"w12.a equ 5")), "REF 20 3 4 255 255");
    assert_eq!(one_line(&Rules::BASE.full_read(b"times a.b")), "REF 20 7 8 255 255");
}

/// The sample that the repository ships, and the inputs of the benchmarks, are sources that are read whole.
#[test]
fn samples_are_accepted() {
    let sample = Rules::NOW.full_read(include_bytes!("../../../samples/welds.asm"));
    assert!(sample.is_ok(), "{sample:?}");
    for text in [sources::marker_lines(65536), sources::code_lines(65536), sources::number_lines(65536)] {
        assert!((65400..=65536).contains(&text.len()));
        let answer = Rules::NOW.full_read(text.as_bytes());
        assert!(answer.is_ok(), "{answer:?}");
    }
}

/// What the program `replay` is given and must print is what is recorded.
#[test]
fn replayed_answers() {
    let file = |name| std::fs::read_to_string(format!("../crates/replay/{name}")).unwrap();
    assert!([file("stdin"), file("stdout")] == <[_; 2]>::from(recorded::replayed()), "run `cargo run --release --bin replay`");
}

/// Every source can be written as a line of printable text, and is read from it as it was.
#[test]
fn escaped_sources() {
    for (source, line) in [
        (b"a\tb\r\n".to_vec(), "a\\tb\\r\\n"),
        (b"db '\\n' \"".to_vec(), "db '\\\\n' \""),
        (b" a ".to_vec(), " a\\x20"),
        (b"\0\x7f\x80\xff".to_vec(), "\\x00\\x7f\\x80\\xff"),
        (vec![b'\n'; 65537], "\\n\\..65537"),
        (b"in-1\n".iter().copied().cycle().take(4684).collect(), "in-1\\n\\..4684"),
    ] {
        assert_eq!(escaped(&source), line);
    }
    on_a_large_stack(|| {
        sources::all(1, &mut |source| {
            let line = escaped(source);
            assert!(unescaped(&line) == source && line.bytes().all(|byte| (b' '..=b'~').contains(&byte)) && !line.ends_with(' '), "{line}");
        })
    });
}

/// The recorded answers of the original are the model's, by the base rules and by the rules; those to other spellings of runs, by the
/// rules, and some are others by the base rules.
#[test]
fn recorded_answers() {
    for rules in [Rules::BASE, Rules::NOW] {
        for (source, expected) in recorded::entries(recorded::TOKENS) {
            assert_eq!(recorded::tokens_of(&source, &mut |source, place| rules.token(source, place)), expected, "{}", escaped(&source));
        }
        for (word, expected) in recorded::entries(recorded::WORDS) {
            assert_eq!(recorded::names_of(&word, &mut |word| rules.named(word)), expected, "{}", escaped(&word));
        }
        for (source, expected) in recorded::entries(recorded::READS) {
            assert_eq!(one_line(&rules.full_read(&source)), expected, "{}", escaped(&source));
        }
    }
    let tokens = |rules: Rules, source: &[u8]| recorded::tokens_of(source, &mut |source, place| rules.token(source, place));
    let mut changed = [0, 0];
    for (source, expected) in recorded::entries(recorded::RESPELLED_TOKENS) {
        assert_eq!(tokens(Rules::NOW, &source), expected, "{}", escaped(&source));
        changed[0] += (tokens(Rules::NOW.suffix_first(), &source) != expected) as u64;
    }
    for (source, expected) in recorded::entries(recorded::RESPELLED_READS) {
        assert_eq!(one_line(&Rules::NOW.full_read(&source)), expected, "{}", escaped(&source));
        changed[1] += (one_line(&Rules::NOW.suffix_first().full_read(&source)) != expected) as u64;
    }
    assert!(changed.iter().all(|count| *count > 100), "{changed:?}");
}
