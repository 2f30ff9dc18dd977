//! The original: the model of it says the same, the rules part from it where they are said to, and docs/DIFFERENCES.md is right about it.
#![cfg(original)]
use differential::beside::Asked;
use differential::compare::on_a_large_stack;
use differential::departures::{left_out, left_out_statement, left_out_tokens, Why};
use differential::escapes::escaped;
use differential::listings::one_line;
use differential::model::Rules;
use differential::respelled::respelled;
use differential::sources::words;
use differential::{original, recorded, recording, sources};
use laqhoncu::TokenKind;
use mrc_compiler::ast::Operator;
use mrc_compiler::parser::Parser;
use std::hint::black_box;

#[test]
fn spellings_of_the_original() {
    let mut spellings = original::spellings();
    let mut operations: Vec<u8> = spellings.iter().map(|word| original::named(word).operation.unwrap()).collect();
    operations.sort();
    operations.dedup();
    assert_eq!((spellings.len(), operations.len(), operations[98]), (117, 99, 98));
    let mut model = words::spellings();
    model.sort();
    spellings.sort();
    assert_eq!(model, spellings);
}

/// The model of the original is the original, and the model of the rules parts from it just on the sources that are left out.
#[test]
fn model_and_original_agree() {
    on_a_large_stack(|| {
        let mut asked = Asked::default();
        sources::all(1, &mut |source| asked.full_read(source));
        assert!(asked.asked > 500_000 && Why::ALL.iter().all(|why| asked.left_out(*why) > 20), "{asked:?}");
        assert!(asked.left_out(Why::WideNumber) > 10_000 && asked.left_out(Why::DottedName) > 10_000, "{asked:?}");
        assert!(asked.left_out(Why::LetterBehind) > 50_000, "{asked:?}");
        assert!(asked.underscored > 10_000 && asked.respelled > 50_000, "{asked:?}");
    });
}

/// What is left out, and what only looks so.
#[test]
fn left_out_sources() {
    let deep = format!("equ {}1", "-".repeat(32));
    let nested = format!("{}a", "times 1 ".repeat(17));
    for (source, why) in [
        ("dw 70000", Some(Why::WideNumber)),
        ("db 256", Some(Why::WideNumber)),
        ("DB 256", Some(Why::WideNumber)),
        ("Dw 65535 65536", Some(Why::WideNumber)),
        ("db 'x',,256", Some(Why::WideNumber)),
        ("a: db 256", Some(Why::WideNumber)),
        ("times 2\n\ntimes 3 db 256", Some(Why::WideNumber)),
        // whatever stands behind
        ("db 256,12b", Some(Why::WideNumber)),
        ("db 256 a", Some(Why::WideNumber)),
        ("a\ndb 256\nequ *5", Some(Why::WideNumber)),
        // not a data line, or not reached
        ("in db,256", None),
        ("in db,256\nin dw,65536", None),
        ("in db,256\ndb 256", Some(Why::WideNumber)),
        ("equ 256", None),
        ("times 70000 db 1", None),
        ("times 256\ndb 255", None),
        ("dw 256", None),
        ("db 1\nequ 256", None),
        ("db '256'", None),
        ("db ;256", None),
        ("db a,256", None),
        ("db 12b,256", None),
        ("db 'x,256", None),
        ("equ *5\ndb 256", None),
        ("times db 256", None),
        ("db 2147483648", None),
        ("equ 2b\ndb 256", None),
        ("w12.a equ 5", Some(Why::DottedName)),
        ("a.", Some(Why::DottedName)),
        ("in [bx+si..b]", Some(Why::DottedName)),
        ("1x.h", Some(Why::DottedName)),
        ("equ *5\na.b", Some(Why::DottedName)),
        ("a.2b", Some(Why::DottedName)),
        // not directly behind, or behind no name
        (".a", None),
        ("a .b", None),
        ("a\n.b", None),
        ("a:.b", None),
        ("1.a", None),
        ("12h.a", None),
        ("db 'a'.b", None),
        ("equ $.a", None),
        ("in [1].a", None),
        ("db 'a.b'", None),
        ("; a.b", None),
        ("a ;.b", None),
        // behind a refused number nothing is read
        ("2b a.b", None),
        // what is met before the name counts first
        ("db 256 a.b", Some(Why::WideNumber)),
        ("a db 256\na.b", Some(Why::WideNumber)),
        ("a.b db 256", Some(Why::DottedName)),
        ("x.db 256", Some(Why::DottedName)),
        ("db.256", Some(Why::DottedName)),
        (&format!("{deep}\na.b"), Some(Why::Limits)),
        (&format!("a.b {deep}"), Some(Why::DottedName)),
        (&format!("equ {}a.b", "-".repeat(32)), Some(Why::DottedName)),
        (&format!("equ {}1+a.b", "-".repeat(32)), Some(Why::Limits)),
        (&format!("{nested}.b"), Some(Why::Limits)),
        (&format!("{}times.x", "times 1 ".repeat(16)), Some(Why::DottedName)),
        // a run that ends in b or d, and o or h directly behind it
        ("equ 10bh", Some(Why::LetterBehind)),
        ("dw 0abh", Some(Why::LetterBehind)),
        ("equ 0adH", Some(Why::LetterBehind)),
        ("equ 1Bo", Some(Why::LetterBehind)),
        ("equ 9DO", Some(Why::LetterBehind)),
        ("equ 00bh", Some(Why::LetterBehind)),
        ("equ 0Bh", Some(Why::LetterBehind)),
        ("1bh.x", Some(Why::LetterBehind)),
        ("times 1bhlt", Some(Why::LetterBehind)),
        ("equ *5\n1bh", Some(Why::LetterBehind)),
        ("equ *0abh", Some(Why::LetterBehind)),
        ("0b12bh", Some(Why::LetterBehind)),
        ("0o18dh", Some(Why::LetterBehind)),
        ("12h1bh", Some(Why::LetterBehind)),
        // Invalid in both readings
        ("equ 0ado", Some(Why::LetterBehind)),
        ("equ 99999999999dh", Some(Why::LetterBehind)),
        // not directly behind, behind another digit, behind a prefix, in no number
        ("equ 10b h", None),
        ("equ 10b\nh", None),
        ("equ 10b", None),
        ("equ 1bx", None),
        ("equ 1b_h", None),
        ("equ 12h", None),
        ("equ 0FFh", None),
        ("equ 17o", None),
        ("equ 0bh", None),
        ("equ 0dh", None),
        ("equ 0bo", None),
        ("equ 0b1h", None),
        ("equ 0x1bh", None),
        ("equ 0d1bh", None),
        ("equ a1bh", None),
        ("equ _0abh", None),
        ("db '1bh'", None),
        ("a ; 1bh", None),
        // behind a refused number nothing is read
        ("12b 1bh", None),
        ("12b\n0abh", None),
        ("0x80000000 1bh", None),
        // what is met before the run counts first, and before the name
        ("db 256,1bh", Some(Why::WideNumber)),
        ("db 256dh", Some(Why::LetterBehind)),
        ("db 1bh,256", Some(Why::LetterBehind)),
        ("times 10bh\ndb 256", Some(Why::LetterBehind)),
        ("times 1bhlt\ndb 256", Some(Why::LetterBehind)),
        ("db 256\ntimes 1bhlt", Some(Why::WideNumber)),
        ("a.b equ 1bh", Some(Why::DottedName)),
        ("equ 1bh\na.b", Some(Why::LetterBehind)),
        ("times 1bha.b", Some(Why::LetterBehind)),
        ("equ 0abh\na.b", Some(Why::LetterBehind)),
        (&format!("{deep}\nequ 1bh"), Some(Why::Limits)),
        (&format!("times 1bhlt\n{deep}"), Some(Why::LetterBehind)),
        (&format!("equ {}1bh", "-".repeat(32)), Some(Why::LetterBehind)),
        (&format!("equ {}0abh", "-".repeat(32)), Some(Why::LetterBehind)),
        (&format!("equ {}0ado", "-".repeat(32)), Some(Why::Limits)),
        (&format!("equ {}1+1bh", "-".repeat(32)), Some(Why::Limits)),
        (&format!("{}times 1bh a", "times 1 ".repeat(16)), Some(Why::Limits)),
        (&format!("times 1bh {nested}"), Some(Why::LetterBehind)),
        ("equ 1bh ;\u{80}", Some(Why::Foreign)),
        (&"1bh ".repeat(16385), Some(Why::Long)),
        ("a.b ;\u{80}", Some(Why::Foreign)),
        (&"a.".repeat(32769), Some(Why::Long)),
        (&deep, Some(Why::Limits)),
        (&nested, Some(Why::Limits)),
        ("db 1;\u{80}", Some(Why::Foreign)),
        (&"\n".repeat(65537), Some(Why::Long)),
    ] {
        assert_eq!(left_out(source.as_bytes()), why, "{source:?}");
    }
    // Of a statement read, what that statement takes.
    for (place, why) in [(0, None), (2, Some(Why::WideNumber)), (8, None), (9, None), (11, None)] {
        assert_eq!(left_out_statement(b"a\ndb 256\nb db 1", place), why, "{place}");
    }
    // The token ahead is read too.
    let reached: [(&str, &[usize]); 5] =
        [("nop\n\na b.c", &[3, 4, 5, 6, 7]), (";a.b", &[1]), ("rep.x", &[0, 1, 2]), ("in [es:]a.b", &[0, 8]), ("equ * 1 a.b", &[7, 8])];
    for (source, places) in reached {
        for place in 0..=source.len() {
            let why = places.contains(&place).then_some(Why::DottedName);
            assert_eq!(left_out_statement(source.as_bytes(), place), why, "{source:?} at {place}");
        }
    }
    let reached: [(&str, &[usize]); 7] = [
        ("nop\na 1bh", &[3, 4, 5, 6]),
        ("nop\na 0abh", &[3, 4, 5, 6]),
        (";1bh", &[1]),
        ("'10bh'", &[1]),
        ("rep 0ado", &[0, 1, 2, 3, 4]),
        ("in [es:]0abh", &[0, 8]),
        ("a b 1bh", &[1, 2, 3, 4]),
    ];
    for (source, places) in reached {
        for place in 0..=source.len() {
            let why = places.contains(&place).then_some(Why::LetterBehind);
            assert_eq!(left_out_statement(source.as_bytes(), place), why, "{source:?} at {place}");
        }
    }
    for (source, why) in [
        ("a.b", Some(Why::DottedName)),
        ("1x.", Some(Why::DottedName)),
        ("1bh.", Some(Why::LetterBehind)),
        ("a.b 1bh", Some(Why::DottedName)),
        ("0abh a.b", Some(Why::LetterBehind)),
        ("1.a", None),
        ("'a.b' .c", None),
        ("2b a.b", None),
        ("0bh 0b1h 1b h", None),
        ("2b 1bh", None),
    ] {
        assert_eq!(left_out_tokens(source), why, "{source:?}");
    }
}

/// Which dots belong to a name; which runs have another spelling, and that no token before or behind goes on in it.
#[test]
fn respelled_sources() {
    for (source, place, expected) in [
        ("w12.a equ b.c.d", 0, "w12_a equ b_c_d"),
        ("a.", 0, "a_"),
        ("a..b:", 0, "a__b:"),
        ("a.2b c.d", 0, "a_2b c_d"),
        ("a. .b.", 0, "a_ .b_"),
        ("1.a 0b.1 10b.x 1x.h", 0, "1.a 0b_1 10b.x 1x_h"),
        ("in [bx.a].b ;c.d\n'e.f'.g.h", 0, "in [bx_a].b ;c.d\n'e.f'.g_h"),
        (";a.b\nc.d", 0, ";a.b\nc_d"),
        (";a.b\nc.d", 1, ";a_b\nc_d"),
        ("a.b.c", 1, "a.b_c"),
        // up to a refused number
        ("a.b 12b c.d", 0, "a_b 12b c.d"),
        ("equ 10bh", 0, "equ 0267"),
        ("dw 0abh,00BH 1Dh", 0, "dw 0171,0011 029"),
        ("equ 0ffffdh", 0, "equ 1048573"),
        ("equ 07fffffdbh", 0, "equ 2147483611"),
        ("times 0ffbhh", 0, "times 0xffbh"),
        ("times 1bhlt", 0, "times 027lt"),
        ("times 001bhh", 0, "times 0x01bh"),
        ("times 001bha", 0, "times 0d027a"),
        ("1bh.x a.b", 0, "027.x a_b"),
        ("equ 1bo", 0, "equ !bo"),
        ("equ 9dO", 0, "equ !dO"),
        ("equ 10bO", 0, "equ !0bO"),
        ("equ 12bo", 0, "equ !!bo"),
        ("equ 0ado", 0, "equ !ado"),
        ("equ 8000000bh", 0, "equ !00000011"),
        ("equ 91111111dh", 0, "equ !286331165"),
        ("0b12bo", 0, "0b1!bo"),
        (";1bh\n1dh", 0, ";1bh\n029"),
        (";1bh\n1dh", 1, ";027\n029"),
        ("1bh 12b 1bh", 0, "027 12b 1bh"),
    ] {
        let said = respelled(source, place).map(|other| other.source);
        assert_eq!(said.as_deref(), Some(expected), "{source:?} at {place}");
    }
    let none =
        ["", "a", ".a", "1.a", "a .b", "'a.b'", ";a.b", "a:.", "2b a.b", "12h", "10b h", "0bh", "0dh", "0b1h", "0x1bh", "'1bh'", "12b 1bh"];
    // the name or the number behind would go on in it, or what is before; and no spelling is short enough
    let without = ["times 1bha", "times 1bhh", "times 1bho", "1bh1dh", "0b12bh", "0o18bh", "equ 9ffffdbh", "a.b 1bha"];
    for source in none.into_iter().chain(without) {
        assert!(respelled(source, 0).is_none(), "{source:?}");
    }
}

/// The token that the original holds after a statement.
#[test]
fn token_ahead() {
    for (source, place, ahead) in [
        ("a: b", 0, 3),
        ("a : b", 0, 4),
        ("a b", 0, 2),
        ("nop ;c\n\n b", 0, 7),
        ("nop\n", 0, 4),
        ("nop ;c", 0, 6),
        ("rep movsb", 0, 4),
        ("x nop\nb", 1, 6),
        ("times 2\na:\nb", 0, 10),
        ("db 1\n  ", 0, 7),
    ] {
        for other in 0..=source.len() {
            assert_eq!(original::holds(source, place, other), other == ahead, "{source:?} at {place}: {other}");
        }
    }
}

/// What docs/DIFFERENCES.md says of the original and the manual's mnemonics.
#[test]
fn differences_from_the_manual() {
    let unknown = ["sal", "repe", "repz", "xlat", "movs", "cmps", "scas", "lods", "stos", "seg", "segment"];
    for word in unknown {
        assert_eq!(original::named(word).operation, None, "{word}");
    }
    let not_the_manuals = ["ssb", "int1", "salc", "int3", "xlatb", "cmpsb", "cmpsw", "scasb", "scasw", "lodsb", "lodsw", "stosb", "stosw"];
    let numbers = [20, 82, 98, 83, 6, 50, 51, 52, 53, 54, 55, 56, 57];
    for (word, number) in not_the_manuals.into_iter().zip(numbers) {
        assert_eq!(original::named(word).operation, Some(number), "{word}");
    }
    assert_eq!(original::named("sbb").operation, original::named("ssb").operation);
    // Every word of the manual's list but those above, a space between two.
    let manual = "aaa aad aam aas adc add and call cbw clc cld cli cmc cmp cwd daa das dec div esc hlt idiv imul in inc int into \
        iret ja jnbe jae jnb jb jnae jbe jna jc jcxz je jz jg jnle jge jnl jl jnge jle jng jmp jnc jne jnz jno jnp jpo jns jo jp \
        jpe js lahf lds lea les lock loop loope loopz loopne loopnz mov movsb movsw mul neg nop not or out pop popf push pushf \
        rcl rcr rep repne repnz ret rol ror sahf sar sbb shl shr stc std sti sub test wait xchg xor";
    let mut known: Vec<&str> = manual.split_whitespace().collect();
    for word in &known {
        assert_ne!(original::named(word).operation, None, "{word}");
    }
    assert_eq!(known.len(), 104);
    known.extend(not_the_manuals);
    known.sort();
    let mut spellings = original::spellings();
    spellings.sort();
    assert_eq!(known, spellings);
    // `lock` is read as an instruction of its own: what follows it is its operand.
    for (source, expected) in [
        ("lock", "ST 0; LI 0 4 96 0 4 4; END 2"),
        ("lock xchg ax,bx", "REF 11 10 12 255 255"),
        ("lock\nxchg ax,bx", "ST 0; LI 0 4 96 0 4 4; ST 5; OR 10 12 8; OR 13 15 11; LI 5 15 3 2 10 15; END 6"),
        ("sal ax,1", "REF 20 6 7 255 255"),
        ("repe cmpsb", "ST 0; LL 0 4; ST 5; LI 5 10 50 0 10 10; END 4"),
        ("xlat", "ST 0; LL 0 4; END 2"),
        ("movs", "ST 0; LL 0 4; END 2"),
        // `rep` and `repne` need no line end, and what follows is a statement of its own.
        ("rep movsb", "ST 0; LI 0 3 46 0 3 3; ST 4; LI 4 9 48 0 9 9; END 4"),
        ("repne scasb", "ST 0; LI 0 5 47 0 5 5; ST 6; LI 6 11 52 0 11 11; END 4"),
    ] {
        let said = one_line(&original::read(source));
        assert_eq!(said, expected, "{source:?}");
    }
}

/// What docs/DIFFERENCES.md says of the original where this software parts from it.
#[test]
fn differences_from_the_original() {
    let read_whole = |text: &str| {
        let mut parser = Parser::new(text);
        while parser.parse_line().expect("no error").is_some() {}
    };
    // 1, 2, 3 and 5 are not the original's: it takes any text, to any depth.
    read_whole(&"\n".repeat(65537));
    read_whole("a ;\u{e9}");
    read_whole(&format!("equ {}1{}", "(".repeat(100), ")".repeat(100)));
    read_whole(&format!("{}a", "times 1 ".repeat(100)));
    // 60: it takes the low bytes of a number that is too wide.
    for (source, expected) in [
        ("dw 70000", "ST 0; LD 0 8 2 112 17; END 2"),
        ("db 256", "ST 0; LD 0 6 1 0; END 2"),
        ("times 2 dw 0x10000", "ST 0; VC 6 7 2; LD 8 18 2 0 0; LT 0 0; END 4"),
    ] {
        assert_eq!(one_line(&original::read(source)), expected);
    }
    // A dot behind a name is a token of its own, which no statement takes; here it belongs to the name.
    let kinds: Vec<TokenKind> = original::tokens("w12.a").0.iter().map(|placed| original::kind_of(&placed.token)).collect();
    assert_eq!(kinds, [TokenKind::Identifier, TokenKind::Punctuation(b'.'), TokenKind::Identifier]);
    for (source, there, here) in [
        ("w12.a", "REF 20 3 4 255 255", "ST 0; LL 0 5; END 2"),
        ("w12.a equ 5", "REF 20 3 4 255 255", "ST 0; LL 0 5; ST 6; VC 10 11 5; LC 6 11; END 5"),
        ("in a.b", "REF 11 4 5 255 255", "ST 0; VL 3 6; OI 3 6; LI 0 6 4 1 3 6; END 4"),
        ("in ax.b", "REF 11 5 6 255 255", "ST 0; VL 3 7; OI 3 7; LI 0 7 4 1 3 7; END 4"),
        ("equ a.b", "REF 10 5 6 255 255", "ST 0; VL 4 7; LC 0 7; END 3"),
        ("in [bx.4]", "REF 21 6 7 255 255", "ST 0; VL 4 8; OD 3 9 0 0; LI 0 9 4 1 3 9; END 4"),
        ("db.1", "REF 15 2 3 255 255", "ST 0; LL 0 4; END 2"),
        ("a.", "REF 20 1 2 255 255", "ST 0; LL 0 2; END 2"),
        ("mov.x", "REF 21 3 4 255 255", "ST 0; LL 0 5; END 2"),
        ("times a.b", "REF 20 7 8 255 255", "REF 34 0 5 255 255"),
        ("times 2 a.", "REF 20 9 10 255 255", "ST 0; VC 6 7 2; LL 8 10; LT 0 0; END 4"),
    ] {
        assert_eq!(one_line(&original::read(source)), there, "{source:?}");
        assert_eq!(one_line(&Rules::NOW.full_read(source.as_bytes())), here, "{source:?}");
    }
    // It looks at a last b or d of a run before it looks at a letter behind; here the letter comes first.
    let accepted = "ST 0; VC 6 8 1; LI 8 11 93 0 11 11; LT 0 0; END 4";
    for (source, there, here) in [
        ("dw 10bh", "REF 15 6 7 255 255", "ST 0; LD 0 7 2 11 1; END 2"),
        ("dw 0abh", "REF 30 3 6 255 255", "ST 0; LD 0 7 2 171 0; END 2"),
        ("equ 1dh", "REF 10 6 7 255 255", "ST 0; VC 4 7 29; LC 0 7; END 3"),
        ("equ 0adh", "REF 21 4 5 255 255", "ST 0; VC 4 8 173; LC 0 8; END 3"),
        ("equ 1bo", "REF 10 6 7 255 255", "REF 21 4 5 255 255"),
        ("equ 9bo", "REF 30 4 6 255 255", "REF 21 4 5 255 255"),
        ("equ 9do", "REF 10 6 7 255 255", "REF 21 4 5 255 255"),
        ("equ 0ado", "REF 21 4 5 255 255", "REF 21 4 5 255 255"),
        ("equ 7ffffffbh", "REF 30 4 12 255 255", "ST 0; VC 4 13 2147483643; LC 0 13; END 3"),
        ("equ 0ffffffffbh", "REF 30 4 14 255 255", "REF 21 4 5 255 255"),
        ("times 1bhlt", accepted, "ST 0; VC 6 9 27; LL 9 11; LT 0 0; END 4"),
        ("times 10bh", "ST 0; VC 6 9 2; LL 9 10; LT 0 0; END 4", "REF 34 0 5 255 255"),
        ("times 1bor ax,bx", "ST 0; VC 6 8 1; OR 11 13 8; OR 14 16 11; LI 8 16 44 2 11 16; LT 0 0; END 6", "REF 21 6 7 255 255"),
        // behind the name that the original reads there, the two may be refused alike or not; 22 has no place
        ("times 1bh(", "REF 20 9 10 255 255", "REF 20 9 10 255 255"),
        ("times 1bor ax,bx\n1", "REF 20 17 18 255 255", "REF 21 6 7 255 255"),
        ("times 1bhlt\nequ *5", "REF 22 0 0 255 255", "REF 22 0 0 255 255"),
        ("times 1bor ax,bx\nequ *5", "REF 22 0 0 255 255", "REF 21 6 7 255 255"),
        // prefixed numbers are read alike
        ("db 0dh,0ah", "REF 15 4 6 255 255", "REF 15 4 6 255 255"),
        ("times 0dh", "ST 0; VC 6 7 0; LL 7 9; LT 0 0; END 4", "ST 0; VC 6 7 0; LL 7 9; LT 0 0; END 4"),
    ] {
        assert_eq!(one_line(&original::read(source)), there, "{source:?}");
        assert_eq!(one_line(&Rules::NOW.full_read(source.as_bytes())), here, "{source:?}");
    }
    // 30 to 34 stand for its panics, and for nothing else.
    for (number, source) in [(30, "dw 12b"), (31, "equ 0x80000000"), (32, "mov ax,[es:]"), (33, "mov ax,[si+di]"), (34, "times 2")] {
        assert!(original::caught(|| Parser::new(source).parse_line().is_ok()).is_err(), "{source:?} is no panic");
        assert_eq!(original::read(source).unwrap_err().number, number, "{source:?}");
    }
    let error = Parser::new("db ,,").parse_line().unwrap_err();
    assert!(error.to_string().contains(' '), "no sentence: {error}");
}

/// The same of `evaluate`: 50 and 51.
#[test]
fn evaluate_of_the_original() {
    let said =
        |operator: Operator, left: i32, right: i32| original::caught(|| black_box(operator).evaluate(black_box(left), black_box(right)));
    for (operator, left, right, wrapped) in
        [(Operator::Add, i32::MAX, 1, i32::MIN), (Operator::Subtract, i32::MIN, 1, i32::MAX), (Operator::Multiply, 65536, 65536, 0)]
    {
        let said = said(operator, left, right);
        // Rust's arithmetic overflows with a panic in a debug build, and wraps in a release build.
        if cfg!(debug_assertions) {
            assert!(said.is_err_and(|message| message.contains("overflow")), "{left} and {right}");
        } else {
            assert_eq!(said, Ok(wrapped), "{left} and {right}");
        }
    }
    assert!(said(Operator::Divide, i32::MIN, -1).is_err_and(|message| message.contains("overflow")));
    assert!(said(Operator::Divide, 1, 0).is_err_and(|message| message.contains("divide by zero")));
    assert_eq!(said(Operator::Divide, -7, 2), Ok(-3));
}

/// The recorded answers are the original's.
#[test]
fn recorded_answers() {
    let text = |bytes: &[u8]| String::from_utf8(bytes.to_vec()).unwrap();
    for (source, expected) in recorded::entries(recorded::TOKENS) {
        let said = recording::tokens_from_original(&source).expect("no source on which a request parts from the original is recorded");
        assert_eq!(said, expected, "{}", escaped(&source));
    }
    for (source, expected) in recorded::entries(recorded::RESPELLED_TOKENS) {
        let said = recording::tokens_from_original_respelled(&source).expect("a run with another spelling");
        assert_eq!(said, expected, "{}", escaped(&source));
    }
    for (source, expected) in recorded::entries(recorded::RESPELLED_READS) {
        let said = recording::from_original_respelled(&source).expect("a run with another spelling");
        assert_eq!(one_line(&said), expected, "{}", escaped(&source));
    }
    for (word, expected) in recorded::entries(recorded::WORDS) {
        let said = recorded::names_of(&word, &mut |word| original::named(&text(word)));
        assert_eq!(said, expected, "{}", escaped(&word));
    }
    for (source, expected) in recorded::entries(recorded::READS) {
        let said = recording::from_original(&source).expect("no source on which a request parts from the original is recorded");
        assert_eq!(one_line(&said), expected, "{}", escaped(&source));
    }
}
