//! Calls of the patch: lines above, replaced, new and below by what each rule is about, and random ones.
use super::{changed, grammar, Random};
use crate::model::{line_end, Rules};
use crate::patch_call::Call;
use laqhoncu::Refusal;

/// Calls of the patch: bytes above 127, wide numbers, dots in names, letters behind a run, each cause of a refusal and long lines, then random
/// ones. Where a source is no longer accepted, its listing is the base rules'.
pub fn calls(count: u64, f: &mut impl FnMut(&Call)) {
    foreign(f);
    wide(f);
    dotted(f);
    lettered(f);
    causes(f);
    longest(f);
    at_random(count, f);
}

/// The listing that a call is given: the base rules' where the source is no longer accepted.
pub fn read(source: &[u8]) -> Result<Vec<u8>, Refusal> {
    Rules::NOW.full_read(source).or_else(|_| Rules::BASE.full_read(source))
}

/// Accepted sources with their own listing, others, listings that were changed, places that are none, bytes above 127.
fn at_random(count: u64, f: &mut impl FnMut(&Call)) {
    let mut random = Random::new(6);
    for _ in 0..count {
        let source = loop {
            let mut source = grammar(&mut random);
            if random.once_in(2) {
                source.extend(grammar(&mut random));
            }
            if read(&source).is_ok() || random.once_in(64) {
                break source;
            }
        };
        let mut listing = read(&source).unwrap_or_default();
        if random.once_in(8) {
            match random.below(4) {
                0 if !listing.is_empty() => {
                    let at = random.below(listing.len());
                    listing[at] = listing[at].wrapping_add(1 + random.below(3) as u8);
                }
                1 => listing.truncate(random.below(listing.len() + 1)),
                2 => listing = read(&grammar(&mut random)).unwrap_or_default(),
                _ => listing.clear(),
            }
        }
        let text = match random.below(4) {
            0 => Vec::new(),
            1 => changed(&mut random, &source),
            _ => grammar(&mut random),
        };
        let text: Vec<u8> = if random.once_in(32) { text } else { text.split(|b| *b == b'\n').next().unwrap().to_vec() };
        let starts = line_starts(&source);
        let place = if random.once_in(32) { random.below(source.len() + 3) } else { starts[random.below(starts.len())] };
        f(&Call { source: &source, listing: &listing, place, text: &text });
        if random.once_in(4) && place <= source.len() {
            with_foreign(&mut random, &Call { source: &source, listing: &listing, place, text: &text }, f);
        }
    }
}

/// The call with a byte above 127 put into the replaced line, above it, behind it or into the text. The longer source keeps its listing.
fn with_foreign(random: &mut Random, call: &Call, f: &mut impl FnMut(&Call)) {
    let Call { listing, place, .. } = *call;
    let (mut source, mut text) = (call.source.to_vec(), call.text.to_vec());
    let end = line_end(&source, place);
    // in a comment, or bare
    let piece = [b';', 128 | random.bits() as u8];
    let piece = &piece[random.below(2)..];
    let put = |into: &mut Vec<u8>, at: usize| drop(into.splice(at..at, piece.iter().copied()));
    let mut moved = 0;
    match random.below(6) {
        0 | 1 => put(&mut source, end),
        2 => put(&mut source, place + random.below(end - place + 1)),
        3 if place > 0 => {
            put(&mut source, random.below(place));
            moved = piece.len();
        }
        4 => {
            let at = end + random.below(source.len() - end + 1);
            put(&mut source, at);
        }
        _ => {
            let at = random.below(text.len() + 1);
            put(&mut text, at);
        }
    }
    f(&Call { source: &source, listing, place: place + moved, text: &text });
}

/// A line above, the replaced one, the new one and one below, with and without bytes above 127 at telling places, behind a `times`
/// without its content and behind others; with the listing of the same source with blanks for such bytes, and with none.
fn foreign(f: &mut impl FnMut(&Call)) {
    let tails: [&[u8]; 6] = [b"", b";\x80", b" ; \xff;", b"\xc8", b" '\xe9'", b"\r"];
    let mut lines: Vec<Vec<u8>> = vec![b"times 1 times 2 ;\xa0".to_vec(), b"\x80times 2".to_vec()];
    for line in ["times 2", "nop", ""] {
        lines.extend(tails.iter().map(|tail| [line.as_bytes(), tail].concat()));
    }
    for above in &lines {
        for replaced in &lines {
            for text in &lines {
                for below in [b"\nb".as_slice(), b"", b"\nb;\x80"] {
                    let source = [above, b"\n".as_slice(), replaced, below].concat();
                    let blanked: Vec<u8> = source.iter().map(|b| if b.is_ascii() { *b } else { b' ' }).collect();
                    let place = above.len() + 1;
                    f(&Call { source: &source, listing: b"", place, text });
                    if let Ok(listing) = read(&blanked) {
                        f(&Call { source: &source, listing: &listing, place, text });
                    }
                }
            }
        }
    }
}

/// Numbers too wide for their data word, and ones that fit, beside a `times` that is left open and in one that is not.
fn wide(f: &mut impl FnMut(&Call)) {
    #[rustfmt::skip]
    let lines = [
        "", "nop", "times 2", "db 255", "db 256", "dw 65535", "dw 65536", "DW 70000 ; wide", "a: db 1,'x',256", "times 2 db 256",
        "times 256 db 1", "times 2 times 3 dw 65536", "db 256,12b", "db 12b,256", "db a,256", "; db 256", "times 2 ; db 256", "in 256",
        "db ,,256",
    ];
    beside(&lines, &["\ndb 256", "", "\nb"], f);
}

/// Dots in names and at the start of a token, beside and in a `times` that is left open, in its count and in what looks like its word.
fn dotted(f: &mut impl FnMut(&Call)) {
    #[rustfmt::skip]
    let lines = [
        "", "nop", "times 2", "w12.a equ 5", "a..b: db 256", "times a.b", "times 2 a.", "times.x 2", "in ax.b,[es:bx+c.d]", "times .b",
        "; times a.b", "times 2 ; a.b", "db 1.a",
    ];
    beside(&lines, &["\na.b", "", "\ntimes a. b"], f);
}

/// Letters behind a run: numbers, Invalid ones and prefixes; in the count of a `times`, where a name may stand directly behind a number, so that
/// it was another `times`, or is one that is left open.
fn lettered(f: &mut impl FnMut(&Call)) {
    #[rustfmt::skip]
    let lines = [
        "", "nop", "times 2", "times 10bh", "times 1bhlt", "times 1bor ax,bx", "times 0dh", "times 1bh a", "dw 0abh,10bH", "db 1bo", "db 12b",
        "db 0dh", "k equ 256dh", "db 256dh", "; times 10bh", "times 2 ; 1bh", "times 0abh",
    ];
    beside(&lines, &["\nequ 1bh", "", "\ntimes 1bhlt"], f);
}

/// Each of some lines above, as the replaced one and as the new one, and one below; with the source's own listing, with the base rules'
/// where that is another, with one that is another's, and with none.
fn beside(lines: &[&str], belows: &[&str], f: &mut impl FnMut(&Call)) {
    for above in lines {
        for replaced in lines {
            for text in lines {
                for below in belows {
                    let source = format!("{above}\n{replaced}{below}").into_bytes();
                    let (place, text) = (above.len() + 1, text.as_bytes());
                    let listing = read(&source).unwrap_or_default();
                    f(&Call { source: &source, listing: &listing, place, text });
                    match Rules::BASE.full_read(&source) {
                        Ok(before) if before != listing => f(&Call { source: &source, listing: &before, place, text }),
                        _ => {}
                    }
                    if below.is_empty() {
                        let shorter = read(replaced.as_bytes()).unwrap_or_default();
                        f(&Call { source: &source, listing: &shorter, place, text });
                        f(&Call { source: &source, listing: b"", place: 0, text });
                    }
                }
            }
        }
    }
}

/// Each cause of a refusal as the new line, between lines that stay and as the last one.
fn causes(f: &mut impl FnMut(&Call)) {
    let source = b"k equ 2\nnop\ndw 1\n";
    let listing = read(source).unwrap();
    for text in super::causes() {
        for place in [8, source.len()] {
            f(&Call { source, listing: &listing, place, text: text.as_bytes() });
        }
    }
}

/// Old and edited sources of 65,535 to 65,537 bytes and more, by blanks in the line above, in the replaced one, in the new one.
pub fn longest(f: &mut impl FnMut(&Call)) {
    let padded = |line: &[u8], count: usize| [line, " ".repeat(count).as_bytes()].concat();
    let lines: [&[u8]; 5] = [b"times 1", b"times 1;\x80", b"nop", b"times 1;", b""];
    for length in [65535, 65536, 65537, 70000] {
        for long in lines {
            for short in lines {
                let whole = padded(long, length - long.len());
                f(&Call { source: &whole, listing: b"", place: 0, text: short });
                f(&Call { source: short, listing: b"", place: 0, text: &whole });
                // the long line above or replaced, in an old source of that length
                let line = padded(long, length - long.len() - 1 - short.len());
                let source = [&line, b"\n".as_slice(), short].concat();
                for place in [0, line.len() + 1] {
                    for text in [b"nop".as_slice(), b"times 1", b""] {
                        f(&Call { source: &source, listing: b"", place, text });
                    }
                }
            }
        }
    }
}

/// Where the lines of a source begin.
pub fn line_starts(source: &[u8]) -> Vec<usize> {
    std::iter::once(0).chain((1..=source.len()).filter(|at| source[at - 1] == b'\n')).collect()
}
