//! What the rules themselves say of sources: their samples, the limits that are not the original's, and where they part from
//! the base rules (RULES 14).
use crate::answer::Answer;
use laqhoncu::Refusal;

/// Sources and answers, each answer on one line as in the recorded ones; a listing may take 65,536 bytes.
pub fn samples() -> Vec<(Vec<u8>, String)> {
    let mut list: Vec<(Vec<u8>, String)> = [
        // K1 to K12
        ("mov ax,[bx+4]", "ST 0; OR 4 6 8; VC 11 12 4; PF 10 12 0; OX 7 13 7 1 0 0; LI 0 13 0 2 4 13; END 6"),
        ("equ -1+2*3", "ST 0; VC 5 6 1; PF 4 6 1; VC 7 8 2; VC 9 10 3; IN 7 10 2; IN 4 10 0; LC 0 10; END 8"),
        ("equ 8/4/2", "ST 0; VC 4 5 8; VC 6 7 4; IN 4 7 3; VC 8 9 2; IN 4 9 3; LC 0 9; END 7"),
        ("equ $$", "ST 0; VS 4 5; LC 0 6; END 3"),
        ("dw 70000", "REF 60 3 8 255 255"),
        ("db ,,", "REF 23 0 2 255 255"),
        ("jmp 1:2", "ST 0; VC 4 5 1; VC 6 7 2; OF 4 7; LI 0 7 59 1 4 7; END 5"),
        ("mov [ ax],bx", "REF 25 6 5 8 255"),
        ("mov ax,[si+di]", "REF 33 8 13 255 255"),
        ("dw 0abh", "ST 0; LD 0 7 2 171 0; END 2"),
        ("dw 10bh", "ST 0; LD 0 7 2 11 1; END 2"),
        ("equ *5", "REF 22 0 0 255 255"),
        // the others
        ("", "END 0"),
        ("equ 0x7fffffff", "ST 0; VC 4 14 2147483647; LC 0 14; END 3"),
        ("equ 0x80000000", "REF 31 4 14 255 255"),
        ("equ 2147483648", "REF 21 4 5 255 255"),
        ("k equ 2\n", "ST 0; LL 0 1; ST 2; VC 6 7 2; LC 2 7; END 5"),
    ]
    .map(|(source, answer)| (source.as_bytes().to_vec(), answer.to_string()))
    .to_vec();
    let requested = wide().into_iter().chain(dotted()).chain(lettered());
    list.extend(requested.map(|(source, answer)| (source.as_bytes().to_vec(), answer.to_string())));
    let nested = |depth| format!("equ {}1{}", "(".repeat(depth), ")".repeat(depth)).into_bytes();
    list.extend([
        (nested(31), "ST 0; VC 35 36 1; LC 0 67; END 3".to_string()),
        (nested(32), "REF 3 36 37 255 255".to_string()),
        // 1, 2 and 4: too long, not ASCII, and a listing of 70 bytes a line that is too long
        ("\n".repeat(65536).into_bytes(), "END 0".to_string()),
        ("\n".repeat(65537).into_bytes(), "REF 1 0 0 255 255".to_string()),
        (b"a\x80".to_vec(), "REF 2 1 2 255 255".to_string()),
        ("in-1\n".repeat(937).into_bytes(), "REF 4 0 0 255 255".to_string()),
    ]);
    list
}

/// An answer where a listing may take 65,536 bytes, as the program `listing` lends.
pub fn in_room(answer: Answer) -> Answer {
    answer.and_then(|listing| if listing.len() > 65536 { Err(Refusal::at(4, 0, 0)) } else { Ok(listing) })
}

/// RULES 7.6: numbers at the edges of `db` and `dw`, and 60 before and behind the other refusals of a line.
fn wide() -> [(&'static str, &'static str); 31] {
    [
        ("db 255", "ST 0; LD 0 6 1 255; END 2"),
        ("dw 65535", "ST 0; LD 0 8 2 255 255; END 2"),
        ("dw 256", "ST 0; LD 0 6 2 0 1; END 2"),
        ("db 256", "REF 60 3 6 255 255"),
        ("dw 65536", "REF 60 3 8 255 255"),
        ("DB 2147483647", "REF 60 3 13 255 255"),
        // in each way to write a number
        ("db 0x100", "REF 60 3 8 255 255"),
        ("db 100h", "REF 60 3 7 255 255"),
        ("db 0000256", "REF 60 3 10 255 255"),
        ("db 0b100000000", "REF 60 3 14 255 255"),
        ("db 400o", "REF 60 3 7 255 255"),
        ("db 256d", "REF 60 3 7 255 255"),
        // wherever a data line stands
        ("times 2 db 256", "REF 60 11 14 255 255"),
        ("a: db 1,'x',256", "REF 60 12 15 255 255"),
        // before any later token is read
        ("db 256,12b", "REF 60 3 6 255 255"),
        ("db 256 0x80000000", "REF 60 3 6 255 255"),
        ("db 256 'x", "REF 60 3 6 255 255"),
        ("db 256 a", "REF 60 3 6 255 255"),
        ("db ,,256", "REF 60 5 8 255 255"),
        ("db '',256", "REF 60 6 9 255 255"),
        // behind 30, 31 and whatever comes first
        ("db 1,12b,256", "REF 30 5 8 255 255"),
        ("db 2560ab", "REF 30 3 9 255 255"),
        ("db 0x80000000", "REF 31 3 13 255 255"),
        ("db 2147483648", "REF 15 3 4 255 255"),
        ("db a,256", "REF 15 3 4 255 255"),
        ("db -256", "REF 15 3 4 255 255"),
        ("db 'x,256", "REF 26 3 9 255 255"),
        // in no other statement, and no text
        ("equ 70000", "ST 0; VC 4 9 70000; LC 0 9; END 3"),
        ("times 70000 a", "ST 0; VC 6 11 70000; LL 12 13; LT 0 0; END 4"),
        ("in db,256", "ST 0; VL 3 5; OI 3 5; VC 6 9 256; OI 6 9; LI 0 9 4 2 3 9; END 6"),
        ("dw 'ab'", "ST 0; LD 0 7 2 97 98; END 2"),
    ]
}

/// RULES 2.3: dots in names, and dots that start a token.
fn dotted() -> [(&'static str, &'static str); 50] {
    [
        ("w12.a equ 5", "ST 0; LL 0 5; ST 6; VC 10 11 5; LC 6 11; END 5"),
        // as many as stand there: a last dot and two dots belong to the name, and digits behind a dot
        ("a.", "ST 0; LL 0 2; END 2"),
        ("a..b", "ST 0; LL 0 4; END 2"),
        ("a.b:", "ST 0; LL 0 3; END 2"),
        ("a.:", "ST 0; LL 0 2; END 2"),
        ("a.5h", "ST 0; LL 0 4; END 2"),
        ("_.2b", "ST 0; LL 0 4; END 2"),
        ("a. b", "ST 0; LL 0 2; ST 3; LL 3 4; END 4"),
        ("A.B\nc.", "ST 0; LL 0 3; ST 4; LL 4 6; END 4"),
        // behind anything else a dot is punctuation
        (".a", "REF 20 0 1 255 255"),
        (".", "REF 20 0 1 255 255"),
        ("a .b", "REF 20 2 3 255 255"),
        ("a\n.b", "REF 20 2 3 255 255"),
        ("a:.b", "REF 20 2 3 255 255"),
        ("1.a", "REF 20 0 1 255 255"),
        ("db 1.a", "REF 15 4 5 255 255"),
        ("db 'a'.b", "REF 15 6 7 255 255"),
        ("equ $.a", "REF 10 5 6 255 255"),
        ("equ (a).b", "REF 10 7 8 255 255"),
        ("in [1].a", "REF 11 6 7 255 255"),
        ("in .a", "REF 21 3 4 255 255"),
        ("in [.a]", "REF 24 4 5 255 255"),
        ("; a.b", "END 0"),
        ("db 'a.b'", "ST 0; LD 0 8 3 97 46 98; END 2"),
        // operands and expressions: the whole name is looked up
        ("in ax.b", "ST 0; VL 3 7; OI 3 7; LI 0 7 4 1 3 7; END 4"),
        ("in byte.", "ST 0; VL 3 8; OI 3 8; LI 0 8 4 1 3 8; END 4"),
        ("in es.:1", "ST 0; VL 3 6; VC 7 8 1; OF 3 8; LI 0 8 4 1 3 8; END 5"),
        ("in [bx.a]", "ST 0; VL 4 8; OD 3 9 0 0; LI 0 9 4 1 3 9; END 4"),
        ("in [ax.b]", "ST 0; VL 4 8; OD 3 9 0 0; LI 0 9 4 1 3 9; END 4"),
        ("in [si+di.x]", "ST 0; VL 7 11; PF 6 11 0; OX 3 12 4 1 0 0; LI 0 12 4 1 3 12; END 5"),
        ("in [es.x:1]", "REF 13 8 9 255 255"),
        ("equ a.b+c.", "ST 0; VL 4 7; VL 8 10; IN 4 10 0; LC 0 10; END 5"),
        // statements
        ("mov.x ax", "ST 0; LL 0 5; ST 6; LL 6 8; END 4"),
        ("rep.", "ST 0; LL 0 4; END 2"),
        ("k equ.5", "ST 0; LL 0 1; ST 2; LL 2 7; END 4"),
        ("db.1", "ST 0; LL 0 4; END 2"),
        ("times.x", "ST 0; LL 0 7; END 2"),
        ("times a.b", "REF 34 0 5 255 255"),
        ("times a.b c.d:", "ST 0; VL 6 9; LL 10 13; LT 0 0; END 4"),
        // names and numbers: `0b` has no digit there
        ("times 0b.1", "ST 0; VC 6 7 0; LL 7 10; LT 0 0; END 4"),
        ("times 10b.x", "REF 20 9 10 255 255"),
        ("times 1bh.x", "REF 20 9 10 255 255"),
        ("times 1x.h", "ST 0; VC 6 7 1; LL 7 10; LT 0 0; END 4"),
        // the other refusals before and behind such a name
        ("equ *5\na.b", "REF 22 0 0 255 255"),
        ("equ *a.b", "REF 22 0 0 255 255"),
        ("a.b db 256", "REF 60 7 10 255 255"),
        ("db 256 a.b", "REF 60 3 6 255 255"),
        ("db a.b", "REF 15 3 6 255 255"),
        ("a.b 12b", "REF 30 4 7 255 255"),
        ("in [es:]a.b", "REF 32 3 8 255 255"),
    ]
}

/// RULES 2.5: o or h behind a run that ends in b or d, by the rows of the table in docs/DIFFERENCES.md; prefixes, which keep their rule;
/// and what follows from it for the other statements.
fn lettered() -> [(&'static str, &'static str); 66] {
    [
        // 0s and 1s and a last b
        ("equ 10bh", "ST 0; VC 4 8 267; LC 0 8; END 3"),
        ("equ 10BH", "ST 0; VC 4 8 267; LC 0 8; END 3"),
        ("equ 1bh", "ST 0; VC 4 7 27; LC 0 7; END 3"),
        ("equ 00bh", "ST 0; VC 4 8 11; LC 0 8; END 3"),
        ("equ 0Bh", "ST 0; VC 4 7 11; LC 0 7; END 3"),
        ("equ 11111111bh", "REF 21 4 5 255 255"),
        // a larger digit before the b
        ("equ 0abh", "ST 0; VC 4 8 171; LC 0 8; END 3"),
        ("equ 2Bh", "ST 0; VC 4 7 43; LC 0 7; END 3"),
        ("equ 7ffffffbh", "ST 0; VC 4 13 2147483643; LC 0 13; END 3"),
        ("equ 8000000bh", "REF 21 4 5 255 255"),
        ("equ 0ffffffffbh", "REF 21 4 5 255 255"),
        // decimal digits and a last d
        ("equ 1dh", "ST 0; VC 4 7 29; LC 0 7; END 3"),
        ("equ 0Dh", "ST 0; VC 4 7 13; LC 0 7; END 3"),
        ("equ 00dH", "ST 0; VC 4 8 13; LC 0 8; END 3"),
        ("equ 256dh", "ST 0; VC 4 9 9581; LC 0 9; END 3"),
        ("equ 2147483647dh", "REF 21 4 5 255 255"),
        ("equ 99999999999dh", "REF 21 4 5 255 255"),
        // another letter before the d
        ("equ 0adh", "ST 0; VC 4 8 173; LC 0 8; END 3"),
        ("equ 0FdH", "ST 0; VC 4 8 253; LC 0 8; END 3"),
        ("equ 7ffffffdh", "ST 0; VC 4 13 2147483645; LC 0 13; END 3"),
        ("equ 0ffffffffdh", "REF 21 4 5 255 255"),
        // each of the four before o: b and d are no octal digits
        ("equ 1bo", "REF 21 4 5 255 255"),
        ("equ 9bO", "REF 21 4 5 255 255"),
        ("equ 1Do", "REF 21 4 5 255 255"),
        ("equ 0ado", "REF 21 4 5 255 255"),
        // no such letter directly behind, or no such run before it
        ("equ 12b", "REF 30 4 7 255 255"),
        ("dw 12b h", "REF 30 3 6 255 255"),
        ("dw 0ab", "REF 30 3 6 255 255"),
        ("equ 10b", "ST 0; VC 4 7 2; LC 0 7; END 3"),
        ("equ 10b h", "REF 10 8 9 255 255"),
        ("equ 10d", "ST 0; VC 4 7 10; LC 0 7; END 3"),
        ("equ 10bx", "REF 10 7 8 255 255"),
        ("equ 10bhh", "REF 10 8 9 255 255"),
        ("equ 17o", "ST 0; VC 4 7 15; LC 0 7; END 3"),
        ("equ 0FFh", "ST 0; VC 4 8 255; LC 0 8; END 3"),
        // prefixed numbers keep their rule
        ("dw 0bh", "REF 15 4 6 255 255"),
        ("db 0dh,0ah", "REF 15 4 6 255 255"),
        ("equ 0bo", "REF 10 5 7 255 255"),
        ("equ 0b1h", "REF 10 7 8 255 255"),
        ("equ 0x1bh", "REF 10 8 9 255 255"),
        ("equ 0d1h", "REF 10 7 8 255 255"),
        ("equ 0o1dh", "REF 10 7 9 255 255"),
        ("times 0dh", "ST 0; VC 6 7 0; LL 7 9; LT 0 0; END 4"),
        ("times 0b12bh", "REF 20 9 12 255 255"),
        // behind `times` a name may stand directly behind a number
        ("times 10bh", "REF 34 0 5 255 255"),
        ("times 10bh a", "ST 0; VC 6 10 267; LL 11 12; LT 0 0; END 4"),
        ("times 1bhlt", "ST 0; VC 6 9 27; LL 9 11; LT 0 0; END 4"),
        ("times 1bor ax,bx", "REF 21 6 7 255 255"),
        ("times 1b nop", "ST 0; VC 6 8 1; LI 9 12 97 0 12 12; LT 0 0; END 4"),
        // everywhere a number may stand
        ("db 0abh,0adH", "ST 0; LD 0 12 2 171 173; END 2"),
        ("in 1bh", "ST 0; VC 3 6 27; OI 3 6; LI 0 6 4 1 3 6; END 4"),
        ("in [1dh]", "ST 0; VC 4 7 29; OD 3 8 0 0; LI 0 8 4 1 3 8; END 4"),
        ("in [bx+1bh]", "ST 0; VC 7 10 27; PF 6 10 0; OX 3 11 7 1 0 0; LI 0 11 4 1 3 11; END 5"),
        ("jmp 1bh:1dh", "ST 0; VC 4 7 27; VC 8 11 29; OF 4 11; LI 0 11 59 1 4 11; END 5"),
        ("equ -1bh*0abh", "ST 0; VC 5 8 27; PF 4 8 1; VC 9 13 171; IN 4 13 2; LC 0 13; END 6"),
        ("in [1bo]", "REF 24 4 5 255 255"),
        ("db 1bo", "REF 15 3 4 255 255"),
        ("1bh", "REF 20 0 3 255 255"),
        // beside the other refusals
        ("db 10bh", "REF 60 3 7 255 255"),
        ("db 2560abh", "REF 60 3 10 255 255"),
        ("db 256,0abh", "REF 60 3 6 255 255"),
        ("db 0abh,12b", "REF 30 8 11 255 255"),
        ("equ *0abh", "REF 22 0 0 255 255"),
        ("in [es:]0abh", "REF 32 3 8 255 255"),
        ("a.b equ 0abh", "ST 0; LL 0 3; ST 4; VC 8 12 171; LC 4 12; END 5"),
        ("1bh.x", "REF 20 0 3 255 255"),
    ]
}
