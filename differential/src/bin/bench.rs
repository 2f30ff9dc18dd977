//! Speed, ours beside the original's, on the same inputs in the same run: `cargo run --release --bin bench [ROUNDS]`.
//! The two take turns; the best round of each counts, and the median is shown beside it.
#[cfg(original)]
use differential::compare::full_reads::Plain;

#[cfg(not(original))]
fn main() {
    panic!("the original's sources are not there (MRC_SOURCE)");
}

#[cfg(original)]
fn main() {
    use differential::sources;
    use differential::timing::in_turn;
    use laqhoncu::{Patched, TokenKind};
    use mrc_compiler::ast::{DataSize, Register, Segment};
    use mrc_compiler::lexer::{Cursor, Token};
    use mrc_compiler::operations::Operation;
    use std::hint::black_box;
    use std::str::FromStr;

    let rounds = std::env::args().nth(1).map_or(200, |word| word.parse().unwrap());
    println!("best of {rounds} rounds, ours and the original's in turn (median in brackets)\n");
    for (title, text) in [("marker lines", sources::marker_lines(65536)), ("code lines", sources::code_lines(65536))] {
        let by_ours = || {
            let (mut place, mut count) = (0, 0u64);
            loop {
                let token = black_box(laqhoncu::token(text.as_bytes(), place).unwrap());
                count += 1;
                if token.kind == TokenKind::EndOfFile {
                    return black_box(count);
                }
                place = token.span.to;
            }
        };
        let by_original = || {
            let (mut cursor, mut count) = (Cursor::new(&text), 0u64);
            loop {
                count += 1;
                if let Token::EndOfFile(_) = black_box(cursor.next_token()) {
                    return black_box(count);
                }
            }
        };
        let tokens = by_ours();
        assert_eq!(tokens, by_original());
        // All tokens in one call, the end of file among them; one call a token; and the original, whose loop is compiled with it.
        let counted = || black_box(laqhoncu::count(text.as_bytes()) as u64 + 1);
        assert_eq!(tokens, counted());
        let (all, _) = in_turn(rounds, counted, by_original);
        let (ours, original) = in_turn(rounds, by_ours, by_original);
        println!("{title}: {} bytes, {tokens} tokens", text.len());
        for (who, time) in [("ours, in one call", all), ("ours, a call a token", ours), ("original", original)] {
            println!(
                "  {who:20} {:6.1} million tokens/s, {:6.1} MB/s  (median {:6.1} MB/s)",
                tokens as f64 / time.best / 1e6,
                text.len() as f64 / time.best / 1e6,
                text.len() as f64 / time.median / 1e6
            );
        }

        let words: Vec<&str> = words_of(&text);
        // The original asks for a register, a segment and a size in turn, each with its own lower-case copy.
        let name = |word: &str| {
            if let Ok(register) = Register::from_str(word) {
                register.encoding()
            } else if let Ok(segment) = Segment::from_str(word) {
                segment.encoding()
            } else {
                DataSize::from_str(word).map_or(255, |size| size as u8)
            }
        };
        let (ours_operation, original_operation) =
            in_turn(rounds, || each(&words, |word| laqhoncu::operation(word.as_bytes())), || each(&words, Operation::from_str));
        let (ours_name, original_name) = in_turn(rounds, || each(&words, |word| laqhoncu::name(word.as_bytes())), || each(&words, name));
        println!("  names: {} words", words.len());
        for (who, time) in [
            ("ours, operation (makes the table)", ours_operation),
            ("original, operation", original_operation),
            ("ours, register, segment or size", ours_name),
            ("original, register, segment or size", original_name),
        ] {
            let share = |seconds: f64| seconds / words.len() as f64 * 1e9;
            println!("    {who:36} {:6.1} ns a word  (median {:6.1})", share(time.best), share(time.median));
        }
        println!();
    }

    println!("full reads, ours into a buffer of 18 times the source, the original's into its trees");
    let mut buffer = vec![0; 18 * 65536];
    for (title, make) in [("marker lines", sources::marker_lines as fn(usize) -> String), ("code lines", sources::code_lines)] {
        for length in [1024, 8192, 65536] {
            let text = make(length);
            let turns = 65536 / length;
            let (ours, original) = in_turn(rounds, full_reads(laqhoncu::full_read, &text, turns, &mut buffer), || {
                for _ in 0..turns {
                    parse(&text);
                }
            });
            let mut again = vec![0; 18 * 65536];
            let (fast, lean) = in_turn(
                rounds,
                full_reads(laqhoncu::full_read, &text, turns, &mut buffer),
                full_reads(laqhoncu::full_read_lean, &text, turns, &mut again),
            );
            let speed = |seconds: f64| (text.len() * turns) as f64 / seconds / 1e6;
            println!(
                "  {title}, {:5} bytes: ours {:6.1} MB/s (median {:6.1}), original {:6.1} MB/s (median {:6.1}), ratio {:.2}",
                text.len(),
                speed(ours.best),
                speed(ours.median),
                speed(original.best),
                speed(original.median),
                original.best / ours.best
            );
            println!(
                "    beside the lean one: ours {:6.1} MB/s (median {:6.1}), lean {:6.1} MB/s (median {:6.1}), ratio {:.2}",
                speed(fast.best),
                speed(fast.median),
                speed(lean.best),
                speed(lean.median),
                fast.best / lean.best
            );
        }
    }
    println!("\none line in the middle exchanged: the patch, the full read of the edited source, and a copy of the same bytes");
    for (title, make) in [("marker lines", sources::marker_lines as fn(usize) -> String), ("code lines", sources::code_lines)] {
        let text = make(65500);
        let listing = laqhoncu::listing(text.as_bytes()).unwrap();
        let middle = text.len() / 2;
        let place = middle + text[middle..].find('\n').unwrap() + 1;
        let new = b"weld dw 12345, 6 ; moved";
        let (mut source, mut out) = (vec![0; 65536], vec![0; 18 * 65536]);
        let Patched { source: s, listing: l } = laqhoncu::patch(text.as_bytes(), &listing, place, new, &mut source, &mut out).unwrap();
        let (edited, expected) = (source[..s].to_vec(), out[..l].to_vec());
        assert_eq!(laqhoncu::full_read(&edited, &mut buffer), Ok(l));
        assert!(buffer[..l] == expected);
        let (patch, full) = in_turn(
            rounds,
            || laqhoncu::patch(black_box(text.as_bytes()), &listing, place, new, &mut source, &mut out).unwrap(),
            || laqhoncu::full_read(black_box(&edited), &mut buffer).unwrap(),
        );
        let (copied, _) = in_turn(
            rounds,
            || {
                source[..s].copy_from_slice(black_box(&edited));
                out[..l].copy_from_slice(black_box(&expected));
            },
            || {},
        );
        let micro = |seconds: f64| seconds * 1e6;
        println!(
            "  {title}, {s} bytes, listing {l}: patch {:.1} us (median {:.1}), full read {:.1} us (median {:.1}), ratio {:.2}; copy {:.1} us",
            micro(patch.best),
            micro(patch.median),
            micro(full.best),
            micro(full.median),
            full.best / patch.best,
            micro(copied.best)
        );
    }
    println!("\ntime by length, marker lines");
    for length in [1024, 2048, 4096, 8192, 16384, 32768, 65536] {
        let text = sources::marker_lines(length);
        let turns = 65536 / length;
        let (ours, _) = in_turn(rounds, full_reads(laqhoncu::full_read, &text, turns, &mut buffer), || {});
        println!("  {:5} bytes: {:.2} ns a byte", text.len(), ours.best / (text.len() * turns) as f64 * 1e9);
    }
    println!("\ntime by depth of expressions, lines of `equ ((1))` up to 64 KiB");
    for depth in [1, 2, 4, 8, 16, 31, 32] {
        let (open, close) = ("(".repeat(depth - 1), ")".repeat(depth - 1));
        let line = format!("equ {open}1{close}\n");
        let text = line.repeat(65536 / line.len());
        let (ours, original) = in_turn(rounds, full_reads(laqhoncu::full_read, &text, 1, &mut buffer), || parse(&text));
        let share = |seconds: f64| seconds / text.len() as f64 * 1e9;
        println!("  depth {depth:2}: ours {:.2} ns a byte, original {:.2}", share(ours.best), share(original.best));
    }
}

/// Reads a source so many times; it has to be accepted.
#[cfg(original)]
fn full_reads<'a>(read: Plain, text: &'a str, turns: usize, buffer: &'a mut [u8]) -> impl FnMut() + 'a {
    move || {
        for _ in 0..turns {
            let length = read(std::hint::black_box(text.as_bytes()), buffer);
            assert!(std::hint::black_box(length).is_ok());
        }
    }
}

/// The original's parse, line by line to the end.
#[cfg(original)]
fn parse(text: &str) {
    let mut parser = mrc_compiler::parser::Parser::new(std::hint::black_box(text));
    while let Some(line) = parser.parse_line().unwrap_or_else(|_| panic!("refused")) {
        std::hint::black_box(line);
    }
}

/// Looks every word up.
#[cfg(original)]
fn each<T>(words: &[&str], look: impl Fn(&str) -> T) {
    for word in words {
        std::hint::black_box(look(word));
    }
}

/// The words of a text, as the lexer finds them.
#[cfg(original)]
fn words_of(text: &str) -> Vec<&str> {
    let mut cursor = mrc_compiler::lexer::Cursor::new(text);
    let mut words = Vec::new();
    loop {
        let from = cursor.pos();
        match cursor.next_token() {
            mrc_compiler::lexer::Token::EndOfFile(_) => return words,
            mrc_compiler::lexer::Token::Identifier(length) => words.push(&text[from..from + length]),
            _ => {}
        }
    }
}
