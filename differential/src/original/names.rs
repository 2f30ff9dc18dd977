//! The original's registers, segments, sizes and operations, as ours; and how it spells its operations.
use crate::answer::Named;
use laqhoncu::{Directive, Name, Register, Segment, Size};
use mrc_compiler::ast::{self, ByteRegister, DataSize, WordRegister};
use mrc_compiler::operations::Operation;
use std::str::FromStr;

/// The number of a register (RULES 3.2), by the original's own encoding.
pub fn number_of_register(register: &ast::Register) -> u8 {
    match register {
        ast::Register::Byte(r) => r.encoding(),
        ast::Register::Word(r) => 8 + r.encoding(),
    }
}

/// The register of the same name; not of the same number, so that the package's numbers are compared too.
pub fn register_of(register: &ast::Register) -> Register {
    match register {
        ast::Register::Byte(ByteRegister::Al) => Register::Al,
        ast::Register::Byte(ByteRegister::Cl) => Register::Cl,
        ast::Register::Byte(ByteRegister::Dl) => Register::Dl,
        ast::Register::Byte(ByteRegister::Bl) => Register::Bl,
        ast::Register::Byte(ByteRegister::Ah) => Register::Ah,
        ast::Register::Byte(ByteRegister::Ch) => Register::Ch,
        ast::Register::Byte(ByteRegister::Dh) => Register::Dh,
        ast::Register::Byte(ByteRegister::Bh) => Register::Bh,
        ast::Register::Word(WordRegister::Ax) => Register::Ax,
        ast::Register::Word(WordRegister::Cx) => Register::Cx,
        ast::Register::Word(WordRegister::Dx) => Register::Dx,
        ast::Register::Word(WordRegister::Bx) => Register::Bx,
        ast::Register::Word(WordRegister::Sp) => Register::Sp,
        ast::Register::Word(WordRegister::Bp) => Register::Bp,
        ast::Register::Word(WordRegister::Si) => Register::Si,
        ast::Register::Word(WordRegister::Di) => Register::Di,
    }
}

/// The segment of the same name.
pub fn segment_of(segment: &ast::Segment) -> Segment {
    match segment {
        ast::Segment::ES => Segment::Es,
        ast::Segment::CS => Segment::Cs,
        ast::Segment::SS => Segment::Ss,
        ast::Segment::DS => Segment::Ds,
    }
}

/// The size of the same name.
pub fn size_of(size: &DataSize) -> Size {
    match size {
        DataSize::Byte => Size::Byte,
        DataSize::Word => Size::Word,
    }
}

/// What the original makes of a word.
pub fn named(word: &str) -> Named {
    let name = if let Ok(register) = ast::Register::from_str(word) {
        Some(Name::Register(register_of(&register)))
    } else if let Ok(segment) = ast::Segment::from_str(word) {
        Some(Name::Segment(segment_of(&segment)))
    } else {
        DataSize::from_str(word).ok().map(|size| Name::Size(size_of(&size)))
    };
    // The original has no type for these: its parser compares the lower case.
    let directive = match word.to_lowercase().as_str() {
        "equ" => Some(Directive::Equ),
        "db" => Some(Directive::Db),
        "dw" => Some(Directive::Dw),
        "times" => Some(Directive::Times),
        _ => None,
    };
    Named { operation: Operation::from_str(word).ok().map(|operation| operation as u8), name, directive }
}

/// The spellings of its operations, from its own text: the quoted words in its `from_str`.
pub fn spellings() -> Vec<&'static str> {
    let text = mrc_compiler::OPERATIONS;
    let arms = &text[text.find("fn from_str").unwrap()..];
    arms.split('"').skip(1).step_by(2).collect()
}
