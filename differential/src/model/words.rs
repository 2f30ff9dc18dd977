//! Words: RULES 3.
use laqhoncu::{Directive, Name, Register, Segment, Size};
use std::sync::OnceLock;

/// The operations by their numbers, from 0 (RULES 3.6): the spellings of each, a space between two.
#[rustfmt::skip]
pub const OPERATIONS: [&str; 99] = [
    // 0: data transfer
    "mov", "push", "pop", "xchg", "in", "out", "xlatb", "lea", "lds", "les", "lahf", "sahf", "pushf", "popf",
    // 14: arithmetic
    "add", "adc", "inc", "aaa", "daa", "sub", "sbb ssb", "dec", "neg", "cmp", "aas", "das", "mul", "imul", "aam", "div", "idiv", "aad",
    "cbw", "cwd",
    // 34: logic
    "not", "shl", "shr", "sar", "rol", "ror", "rcl", "rcr", "and", "test", "or", "xor",
    // 46: strings
    "rep", "repne repnz", "movsb", "movsw", "cmpsb", "cmpsw", "scasb", "scasw", "lodsb", "lodsw", "stosb", "stosw",
    // 58: control transfer
    "call", "jmp", "ret", "je jz", "jl jnge", "jle jng", "jb jc jnae", "jbe jna", "jp jpe", "jo", "js", "jne jnz", "jnl jge", "jnle jg",
    "jnb jae jnc", "jnbe ja", "jnp jpo", "jno", "jns", "loop", "loopz loope", "loopnz loopne", "jcxz", "int", "int1", "int3", "into",
    "iret",
    // 86: processor control
    "clc", "cmc", "stc", "cld", "std", "cli", "sti", "hlt", "wait", "esc", "lock", "nop", "salc",
];

pub const REP: u8 = 46;
pub const REPNE: u8 = 47;

/// The longest word that means something: `loopne`.
const LONGEST: usize = 6;

/// A word in lower case, if it can mean something.
fn lower(word: &[u8]) -> Option<([u8; LONGEST], usize)> {
    let mut letters = [0; LONGEST];
    let room = letters.get_mut(..word.len())?;
    room.copy_from_slice(word);
    room.make_ascii_lowercase();
    Some((letters, word.len()))
}

/// The number of the operation that a word names.
pub fn operation(word: &[u8]) -> Option<u8> {
    static TABLE: OnceLock<Vec<(&[u8], u8)>> = OnceLock::new();
    let table = TABLE.get_or_init(|| {
        let numbered = OPERATIONS.iter().zip(0..);
        let mut table: Vec<_> = numbered.flat_map(|(words, n)| words.split(' ').map(move |word| (word.as_bytes(), n))).collect();
        table.sort();
        table
    });
    let (letters, length) = lower(word)?;
    let row = table.binary_search_by(|(spelling, _)| (*spelling).cmp(&letters[..length])).ok()?;
    Some(table[row].1)
}

/// The register, segment or size that a word names.
pub fn name(word: &[u8]) -> Option<Name> {
    let (letters, length) = lower(word)?;
    Some(match &letters[..length] {
        b"byte" => Name::Size(Size::Byte),
        b"word" => Name::Size(Size::Word),
        b"es" => Name::Segment(Segment::Es),
        b"cs" => Name::Segment(Segment::Cs),
        b"ss" => Name::Segment(Segment::Ss),
        b"ds" => Name::Segment(Segment::Ds),
        b"al" => Name::Register(Register::Al),
        b"cl" => Name::Register(Register::Cl),
        b"dl" => Name::Register(Register::Dl),
        b"bl" => Name::Register(Register::Bl),
        b"ah" => Name::Register(Register::Ah),
        b"ch" => Name::Register(Register::Ch),
        b"dh" => Name::Register(Register::Dh),
        b"bh" => Name::Register(Register::Bh),
        b"ax" => Name::Register(Register::Ax),
        b"cx" => Name::Register(Register::Cx),
        b"dx" => Name::Register(Register::Dx),
        b"bx" => Name::Register(Register::Bx),
        b"sp" => Name::Register(Register::Sp),
        b"bp" => Name::Register(Register::Bp),
        b"si" => Name::Register(Register::Si),
        b"di" => Name::Register(Register::Di),
        _ => return None,
    })
}

/// The directive that a word names.
pub fn directive(word: &[u8]) -> Option<Directive> {
    let (letters, length) = lower(word)?;
    Some(match &letters[..length] {
        b"equ" => Directive::Equ,
        b"db" => Directive::Db,
        b"dw" => Directive::Dw,
        b"times" => Directive::Times,
        _ => return None,
    })
}

/// The number of a register (RULES 3.2), written out, so that the package's numbers are compared with these.
pub fn register_number(register: Register) -> u32 {
    match register {
        Register::Al => 0,
        Register::Cl => 1,
        Register::Dl => 2,
        Register::Bl => 3,
        Register::Ah => 4,
        Register::Ch => 5,
        Register::Dh => 6,
        Register::Bh => 7,
        Register::Ax => 8,
        Register::Cx => 9,
        Register::Dx => 10,
        Register::Bx => 11,
        Register::Sp => 12,
        Register::Bp => 13,
        Register::Si => 14,
        Register::Di => 15,
    }
}

/// The number of a segment: RULES 3.3.
pub fn segment_number(segment: Segment) -> u32 {
    match segment {
        Segment::Es => 0,
        Segment::Cs => 1,
        Segment::Ss => 2,
        Segment::Ds => 3,
    }
}

/// A size as a field: RULES 8.3.
pub fn size_field(size: Option<Size>) -> u32 {
    match size {
        None => 0,
        Some(Size::Byte) => 1,
        Some(Size::Word) => 2,
    }
}

/// A segment as a field of an address: RULES 8.3.
pub fn segment_field(segment: Option<Segment>) -> u32 {
    segment.map_or(0, |segment| 1 + segment_number(segment))
}
