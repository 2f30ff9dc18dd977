//! Patches whose answers RULES 10 settles in its own words; neither the model nor the original is asked.
use crate::escapes::escaped;
use crate::listings::{lines, records};
use crate::model::Rules;
use crate::patch_call::{called, shown, Call, Patch, Patched};
use laqhoncu::Refusal;

pub struct Known {
    pub source: Vec<u8>,
    pub listing: Vec<u8>,
    pub place: usize,
    pub text: Vec<u8>,
    pub answer: Patched,
}

impl Known {
    pub fn call(&self) -> Call<'_> {
        Call { source: &self.source, listing: &self.listing, place: self.place, text: &self.text }
    }

    fn of(source: impl AsRef<[u8]>, listing: &str, place: usize, text: impl AsRef<[u8]>, answer: Patched) -> Self {
        Self { source: source.as_ref().to_vec(), listing: records(listing), place, text: text.as_ref().to_vec(), answer }
    }
}

fn written(source: impl AsRef<[u8]>, listing: &str) -> Patched {
    Ok((source.as_ref().to_vec(), records(listing)))
}

fn refused(number: u8, from: usize, to: usize) -> Patched {
    Err(Refusal::at(number, from, to))
}

fn known() -> Vec<Known> {
    let blanks = |count| " ".repeat(count);
    let times = |count| "times 1 ".repeat(count);
    vec![
        // 40: the full read of the line alone. It tests 1 and 2 before it reads, and a line with a byte above 127 is refused with 2.
        Known::of("times 2", "", 0, "", refused(40, 0, 0)),
        Known::of("times 2;", "", 0, "", refused(40, 0, 0)),
        Known::of(b"times 2;\x80", "", 0, "", written("", "")),
        Known::of(b"times 2;\x7f", "", 0, "", refused(40, 0, 0)),
        Known::of(b"times 2 \xff", "", 0, "b", written("b", "ST 0; LL 0 1")),
        Known::of(b"a\ntimes 2;\xc8\nb", "ST 0; LL 0 1; ST 12; LL 12 13", 2, "", written("a\n\nb", "ST 0; LL 0 1; ST 3; LL 3 4")),
        Known::of("nop", "", 0, "times 1;", refused(40, 0, 0)),
        // 2: the edited source, wherever the byte stands there.
        Known::of("nop", "", 0, b"times 1;\x80", refused(2, 8, 9)),
        Known::of(b"times 2;\x80\nb", "", 10, "c", refused(2, 8, 9)),
        Known::of(b";\x80\nb", "", 3, "times 2", refused(2, 1, 2)),
        Known::of(b"times 2;\x80\nb;\x80", "", 0, "", refused(2, 3, 4)),
        Known::of(b"a;\xff", "ST 0; LL 0 1", 0, "b", written("b", "ST 0; LL 0 1")),
        // 1: the old source or the edited one.
        Known::of("nop", "", 0, format!("times 1{}", blanks(65530)), refused(1, 0, 0)),
        Known::of("nop", "", 0, format!("times 1{}", blanks(65529)), refused(40, 0, 0)),
        Known::of("nop", "", 0, blanks(65536), written(blanks(65536), "")),
        Known::of("nop", "", 0, blanks(65537), refused(1, 0, 0)),
        Known::of(format!("times 1{}", blanks(65530)), "", 0, "", refused(1, 0, 0)),
        Known::of(format!("times 1{}", blanks(65529)), "", 0, "", refused(40, 0, 0)),
        Known::of([b"times 1;\x80".as_slice(), blanks(65528).as_bytes()].concat(), "", 0, "", refused(1, 0, 0)),
        Known::of([b"times 1;\x80".as_slice(), blanks(65527).as_bytes()].concat(), "", 0, "", written("", "")),
        // 40 counts the limits of the read, looks at the nearest line above with more than blanks and a comment, and comes before the
        // reading.
        Known::of("", "", 0, times(16), refused(40, 0, 0)),
        Known::of("", "", 0, times(17), refused(5, 128, 133)),
        Known::of("times 2\nb", "", 8, "equ *", refused(40, 0, 0)),
        Known::of("times 2\n \t;times\n\r\nb", "", 19, "c", refused(40, 0, 0)),
        Known::of(";times 2\nb", "ST 9; LL 9 10", 9, "c", written(";times 2\nc", "ST 9; LL 9 10")),
        Known::of("times 2\na\nb", "", 10, "c", written("times 2\na\nc", "ST 10; LL 10 11")),
        // The other causes of the patch, and an edit that moves the rest.
        Known::of("a\nb", "", 1, "c", refused(42, 0, 0)),
        Known::of("a\nb", "", 4, "c", refused(42, 0, 0)),
        Known::of("a", "", 0, "b\n", refused(43, 0, 0)),
        Known::of("a", "LL 0 1", 0, "b", refused(41, 0, 0)),
        Known::of("a\n", "ST 0; LL 0 1", 2, "equ *5", refused(22, 0, 0)),
        Known::of("a\n", "ST 0; LL 0 1", 2, "dw 12b", refused(30, 5, 8)),
        Known::of("a\n12b", "ST 0; LL 0 1", 0, "in", written("in\n12b", "ST 0; LI 0 2 4 0 2 2")),
        Known::of(
            "a\nb\n",
            "ST 0; LL 0 1; ST 2; LL 2 3",
            0,
            "k equ 2",
            written("k equ 2\nb\n", "ST 0; LL 0 1; ST 2; VC 6 7 2; LC 2 7; ST 8; LL 8 9"),
        ),
        // 60 is of the new line alone: a listing from before it is well-formed, and its lines are copied or dropped unread.
        Known::of(
            "dw 70000\na",
            "ST 0; LD 0 8 2 112 17; ST 9; LL 9 10",
            9,
            "b",
            written("dw 70000\nb", "ST 0; LD 0 8 2 112 17; ST 9; LL 9 10"),
        ),
        Known::of(
            "a\ndw 70000",
            "ST 0; LL 0 1; ST 2; LD 2 10 2 112 17",
            0,
            "bc",
            written("bc\ndw 70000", "ST 0; LL 0 2; ST 3; LD 3 11 2 112 17"),
        ),
        Known::of("dw 70000", "ST 0; LD 0 8 2 112 17", 0, "dw 65535", written("dw 65535", "ST 0; LD 0 8 2 255 255")),
        Known::of("a\nb", "ST 0; LL 0 1; ST 2; LL 2 3", 2, "dw 70000", refused(60, 5, 10)),
        Known::of("a\nb\n12b", "ST 0; LL 0 1; ST 2; LL 2 3", 2, "k: db 1,0x100,2b", refused(60, 10, 15)),
        Known::of("a\nb", "ST 0; LL 0 1; ST 2; LL 2 3", 2, "times 2 db 256", refused(60, 13, 16)),
        Known::of("a\ntimes 2", "ST 0; LL 0 1", 2, "db 256", refused(40, 0, 0)),
        Known::of("times 2\nb", "", 8, "db 256", refused(40, 0, 0)),
        Known::of("times 2 db 256\nb", "", 15, "c", written("times 2 db 256\nc", "ST 15; LL 15 16")),
        // A dot that starts a token is punctuation; and a line beside the new one is not read, with or without a dot.
        Known::of("a\n", "ST 0; LL 0 1", 2, ".a", refused(20, 2, 3)),
        Known::of("a\n", "ST 0; LL 0 1", 2, "a .b", refused(20, 4, 5)),
        Known::of("a\n", "ST 0; LL 0 1", 2, "db 1.a", refused(15, 6, 7)),
        Known::of("times 2\n.a", "", 8, "a", refused(40, 0, 0)),
        Known::of("a.b\nc\n.d", "ST 4; LL 4 5", 4, "in", written("a.b\nin\n.d", "ST 4; LI 4 6 4 0 6 6")),
    ]
}

/// RULES 2.3: a line with a dot in a name leaves a `times` open, or is read, where the base rules refuse it at the dot.
fn dotted() -> Vec<Known> {
    let labels = "ST 0; LL 0 1; ST 2; LL 2 3";
    vec![
        Known::of("times a.b\nb", "", 10, "c", refused(40, 0, 0)),
        Known::of("times a.b", "", 0, "c", refused(40, 0, 0)),
        Known::of("c", "", 0, "times a.b ; open", refused(40, 0, 0)),
        Known::of("times 2 a.b\nb", "", 12, "c", written("times 2 a.b\nc", "ST 12; LL 12 13")),
        Known::of(
            "a\nb\n",
            labels,
            0,
            "w12.a equ 5",
            written("w12.a equ 5\nb\n", "ST 0; LL 0 5; ST 6; VC 10 11 5; LC 6 11; ST 12; LL 12 13"),
        ),
        Known::of(
            "w12.a equ 5\nb",
            "ST 0; LL 0 5; ST 6; VC 10 11 5; LC 6 11; ST 12; LL 12 13",
            12,
            "in ax.b",
            written("w12.a equ 5\nin ax.b", "ST 0; LL 0 5; ST 6; VC 10 11 5; LC 6 11; ST 12; VL 15 19; OI 15 19; LI 12 19 4 1 15 19"),
        ),
        Known::of("a\nw12.a", "ST 0; LL 0 1; ST 2; LL 2 7", 0, "a..", written("a..\nw12.a", "ST 0; LL 0 3; ST 4; LL 4 9")),
        // `times.x` is no directive: it leaves nothing open, above the new line or in it.
        Known::of("times.x\nb", "ST 0; LL 0 7; ST 8; LL 8 9", 8, "c", written("times.x\nc", "ST 0; LL 0 7; ST 8; LL 8 9")),
        Known::of("a\nb", labels, 2, "times.x 2", refused(20, 10, 11)),
        Known::of("a\nb", labels, 2, "times 2 times.x:", written("a\ntimes 2 times.x:", "ST 0; LL 0 1; ST 2; VC 8 9 2; LL 10 17; LT 0 0")),
        // the refusals behind such a name
        Known::of("a\nb", labels, 2, "w.1: db 256", refused(60, 10, 13)),
        Known::of("a\nb", labels, 2, "w.1 equ *5", refused(22, 0, 0)),
        Known::of(
            "a\nb",
            labels,
            2,
            "in [si+di.x]",
            written("a\nin [si+di.x]", "ST 0; LL 0 1; ST 2; VL 9 13; PF 8 13 0; OX 5 14 4 1 0 0; LI 2 14 4 1 5 14"),
        ),
    ]
}

/// RULES 2.5: a line with o or h behind a run that ends in b or d is read, leaves a `times` open or is refused, where the base rules say
/// something else.
fn lettered() -> Vec<Known> {
    let labels = "ST 0; LL 0 1; ST 2; LL 2 3";
    vec![
        Known::of("a\nb", labels, 2, "dw 0abh,10bh", written("a\ndw 0abh,10bh", "ST 0; LL 0 1; ST 2; LD 2 14 4 171 0 11 1")),
        Known::of("a\nb", labels, 0, "k equ 0adh", written("k equ 0adh\nb", "ST 0; LL 0 1; ST 2; VC 6 10 173; LC 2 10; ST 11; LL 11 12")),
        Known::of("a\nb", labels, 2, "equ 1bo", refused(21, 6, 7)),
        Known::of("a\nb", labels, 2, "db 10bh", refused(60, 5, 9)),
        Known::of("a\nb", labels, 2, "db 0dh,0ah", refused(15, 6, 8)),
        Known::of("a\nb", labels, 2, "dw 12b h", refused(30, 5, 8)),
        // a `times` whose count takes the letter has no content in it
        Known::of("a\nb", labels, 2, "times 10bh", refused(40, 0, 0)),
        Known::of("times 10bh\nb", "", 11, "c", refused(40, 0, 0)),
        Known::of("times 10bh", "ST 0; VC 6 9 2; LL 9 10; LT 0 0", 0, "c", refused(40, 0, 0)),
        Known::of("times 0abh\nb", "", 11, "c", refused(40, 0, 0)),
        Known::of("times 1bo\nb", "", 10, "c", written("times 1bo\nc", "ST 10; LL 10 11")),
        Known::of("a\nb", labels, 2, "times 1bor ax,bx", refused(21, 8, 9)),
        Known::of("a\nb", labels, 2, "times 1bhlt", written("a\ntimes 1bhlt", "ST 0; LL 0 1; ST 2; VC 8 11 27; LL 11 13; LT 0 0")),
        Known::of("a\nb", labels, 2, "times 0dh", written("a\ntimes 0dh", "ST 0; LL 0 1; ST 2; VC 8 9 0; LL 9 11; LT 0 0")),
        // A listing from before is well-formed, and its lines are copied or dropped unread.
        Known::of(
            "times 1bhlt\nb",
            "ST 0; VC 6 8 1; LI 8 11 93 0 11 11; LT 0 0; ST 12; LL 12 13",
            12,
            "equ 1dh",
            written("times 1bhlt\nequ 1dh", "ST 0; VC 6 8 1; LI 8 11 93 0 11 11; LT 0 0; ST 12; VC 16 19 29; LC 12 19"),
        ),
        Known::of("times 1bhlt", "ST 0; VC 6 8 1; LI 8 11 93 0 11 11; LT 0 0", 0, "c", written("c", "ST 0; LL 0 1")),
    ]
}

/// Those that hold under some rules.
pub fn under(rules: Rules) -> Vec<Known> {
    let wide = |known: &Known| matches!(&known.answer, Err(refusal) if refusal.number == 60);
    let dotted = if rules.dots_in_names { dotted() } else { Vec::new() };
    let lettered = if rules.letter_first { lettered() } else { Vec::new() };
    known().into_iter().chain(dotted).chain(lettered).filter(|known| rules.counts_fit || !wide(known)).collect()
}

/// Panics where the patch says something else. Gives how many were asked.
pub fn replay(rules: Rules, mut ours: impl Patch) -> u64 {
    let list = under(rules);
    for known in &list {
        let (call, room) = (known.call(), 65536);
        let said = called(&mut ours, &call, room, room);
        let text = |answer: &Patched| match answer {
            Ok((source, listing)) => format!("{}\n{}", escaped(source), lines(listing)),
            Err(refusal) => format!("{refusal:?}\n"),
        };
        assert!(said == known.answer, "a known patch: {}\nexpected {}said {}", shown(&call), text(&known.answer), text(&said));
    }
    list.len() as u64
}
