//! The typed records, on the samples of RULES 15.1 and on bytes that are none.
use laqhoncu::{Encoding, NoRecord, Operator, Record, Register, Segment, Size, Span, listing, records};

fn lines(source: &str) -> String {
    let listing = listing(source.as_bytes()).unwrap_or_else(|refused| panic!("{source}: {refused:?}"));
    records(&listing).map(|record| record.unwrap().to_string()).collect::<Vec<_>>().join("; ")
}

#[test]
fn samples_as_lines() {
    for (source, wanted) in [
        ("mov ax,[bx+4]", "ST 0; OR 4 6 8; VC 11 12 4; PF 10 12 0; OX 7 13 7 1 0 0; LI 0 13 0 2 4 13"),
        ("equ -1+2*3", "ST 0; VC 5 6 1; PF 4 6 1; VC 7 8 2; VC 9 10 3; IN 7 10 2; IN 4 10 0; LC 0 10"),
        ("equ 8/4/2", "ST 0; VC 4 5 8; VC 6 7 4; IN 4 7 3; VC 8 9 2; IN 4 9 3; LC 0 9"),
        ("equ $$", "ST 0; VS 4 5; LC 0 6"),
        ("equ $", "ST 0; VI 4 5; LC 0 5"),
        ("dw 4464", "ST 0; LD 0 7 2 112 17"),
        ("db 255,'no',0", "ST 0; LD 0 13 4 255 110 111 0"),
        ("times 2 dw 65535", "ST 0; VC 6 7 2; LD 8 16 2 255 255; LT 0 0"),
        ("jmp 1:2", "ST 0; VC 4 5 1; VC 6 7 2; OF 4 7; LI 0 7 59 1 4 7"),
        ("push es", "ST 0; OS 5 7 0; LI 0 7 1 1 5 7"),
        ("inc byte [ds:k]", "ST 0; VL 13 14; OD 9 15 1 4; LI 0 15 16 1 4 15"),
        ("int 3", "ST 0; VC 4 5 3; OI 4 5; LI 0 5 81 1 4 5"),
        ("times 2 a:", "ST 0; VC 6 7 2; LL 8 9; LT 0 0"),
        ("", ""),
    ] {
        assert_eq!(lines(source), wanted, "{source}");
    }
}

#[test]
fn typed() {
    let bytes = listing(b"mov word [es:bp+di-2],cs").unwrap();
    let all: Vec<Record> = records(&bytes).map(Result::unwrap).collect();
    let span = |from, to| Span { from, to };
    assert_eq!(
        all,
        [
            Record::Statement { place: 0 },
            Record::Number { span: span(19, 20), value: 2 },
            Record::Prefix { span: span(18, 20), operator: Operator::Subtract },
            Record::Indirect {
                span: span(9, 21),
                encoding: Encoding::BpDi,
                displacement: true,
                size: Some(Size::Word),
                segment: Some(Segment::Es)
            },
            Record::Segment { span: span(22, 24), segment: Segment::Cs },
            Record::Instruction { span: span(0, 24), operation: 0, operands: 2, operands_span: span(4, 24) },
        ]
    );
    assert_eq!(all.iter().map(Record::mark).collect::<Vec<_>>(), ["ST", "VC", "PF", "OX", "OS", "LI"]);
}

/// The last record of a source before its line record.
fn last(source: &str) -> String {
    let bytes = listing(source.as_bytes()).unwrap_or_else(|refused| panic!("{source}: {refused:?}"));
    let all: Vec<String> = records(&bytes).map(|record| format!("{:?}", record.unwrap())).collect();
    all[all.len() - 2].clone()
}

/// Each word and each pair of registers in a source is what its spelling says.
#[test]
fn spelled_as_in_the_source() {
    for (n, word) in "al cl dl bl ah ch dh bh ax cx dx bx sp bp si di".split(' ').enumerate() {
        let register = Register::of(n as u32).unwrap();
        assert_eq!((register.spelling(), register.number() as usize), (word, n));
        let (span, name) = (Span { from: 4, to: 6 }, laqhoncu::name(word.as_bytes()));
        assert_eq!(last(&format!("inc {word}")), format!("{:?}", Record::Register { span, register }));
        assert_eq!(name, Some(laqhoncu::Name::Register(register)));
    }
    for word in "es cs ss ds".split(' ') {
        let said = last(&format!("pop {word}"));
        assert!(said.starts_with("Segment") && said.to_lowercase().contains(&format!("segment: {word} ")), "{said}");
    }
    for pair in ["bx+si", "bx+di", "bp+si", "bp+di", "si", "di", "bp", "bx"] {
        let said = last(&format!("neg byte [{pair}]")).to_lowercase();
        assert!(said.starts_with("indirect") && said.contains(&format!("encoding: {}, ", pair.replace('+', ""))), "{said}");
        assert!(said.contains("size: some(byte), segment: none"), "{said}");
    }
    for (sign, name) in [("+", "Add"), ("-", "Subtract"), ("*", "Multiply"), ("/", "Divide")] {
        let said = last(&format!("equ 1{sign}2"));
        assert!(said.starts_with("Infix") && said.contains(&format!("operator: {name} ")), "{said}");
    }
    for (source, name) in
        [("equ $", "InstructionStart"), ("equ $$", "SectionStart"), ("int 3", "Immediate"), ("jmp 1:2", "Far"), ("equ k", "Name")]
    {
        assert!(last(source).starts_with(name), "{source}: {}", last(source));
    }
    for encoding in (0..8).map(|n| Encoding::of(n).unwrap()) {
        assert_eq!(format!("{encoding:?}").to_lowercase(), encoding.spelling().replace('+', ""));
    }
    let operators: String = (0..4).map(|n| Operator::of(n).unwrap().spelling()).collect();
    assert_eq!(operators, "+-*/");
}

/// The statements of a source, read in turn, are its listing.
#[test]
fn statements_make_the_listing() {
    let source = b"a: mov ax,[bx+4]\n\ntimes 2 dw 1,'ok'\nk equ -1+2*3 ; end\n";
    let (mut out, mut place, mut all) = ([0xAA; 256], 0, Vec::new());
    while let Some(statement) = laqhoncu::statement_read(source, place, &mut out).unwrap() {
        all.extend_from_slice(&out[..statement.length]);
        place = statement.ahead;
    }
    assert_eq!(all, listing(source).unwrap());
}

#[test]
fn tokens_are_typed() {
    use laqhoncu::TokenKind::*;
    let source = b"k\t;c\n'a' 12 $!'b";
    let (mut place, mut kinds) = (0, Vec::new());
    loop {
        let token = laqhoncu::token(source, place).unwrap();
        assert_eq!(laqhoncu::token_read(source, place), Ok(token));
        kinds.push(token.kind);
        if token.kind == EndOfFile {
            break;
        }
        place = token.span.to;
    }
    let blank = Whitespace;
    let wanted = [Identifier, blank, Comment, NewLine, Text { closed: true }, blank, Number(12), blank, Punctuation(b'$'), Invalid(b'!')];
    assert_eq!(kinds, [&wanted[..], &[Text { closed: false }, EndOfFile]].concat());
}

/// A mark and its fields.
fn bytes(mark: &str, fields: &[u32]) -> Vec<u8> {
    mark.bytes().chain(fields.iter().flat_map(|field| field.to_le_bytes())).collect()
}

#[test]
fn a_value_is_signed() {
    let listing = bytes("VC", &[1, 2, u32::MAX]);
    assert_eq!(records(&listing).next(), Some(Ok(Record::Number { span: Span { from: 1, to: 2 }, value: -1 })));
}

#[test]
fn bytes_that_are_no_record() {
    let good = bytes("OR", &[1, 3, 8]);
    assert_eq!(records(&good).next(), Some(Ok(Record::Register { span: Span { from: 1, to: 3 }, register: Register::Ax })));
    let mut bad = vec![
        bytes("XX", &[0, 0]),
        bytes("OR", &[1, 3, 16]),
        bytes("OS", &[1, 3, 4]),
        bytes("IN", &[1, 3, 4]),
        bytes("OD", &[1, 3, 3, 0]),
        bytes("OD", &[1, 3, 0, 5]),
        bytes("OX", &[1, 3, 8, 0, 0, 0]),
        bytes("OX", &[1, 3, 0, 2, 0, 0]),
        bytes("PF", &[1, 3, 2]),
        bytes("LI", &[1, 3, 99, 0, 3, 3]),
        bytes("LI", &[1, 3, 0, 3, 3, 3]),
        bytes("LD", &[1, 3, 0]),
        bytes("LT", &[1, 3]),
        bytes("LD", &[1, 3, 1]),
        bytes("LD", &[1, 3, u32::MAX]),
    ];
    bad.extend((1..good.len()).map(|n| good[..n].to_vec()));
    for bad in bad {
        let both = [good.clone(), bad].concat();
        let read: Vec<_> = records(&both).collect();
        assert_eq!(read.len(), 2, "{both:?}");
        assert_eq!(read[1], Err(NoRecord { place: good.len() }), "{both:?}");
    }
}
