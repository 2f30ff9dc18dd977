//! What include/laqhoncu.h declares. A slice of the library's is a pointer and a length.

#[repr(C)]
pub struct Numbers {
    pub number: u32,
    pub from: u32,
    pub to: u32,
    pub first: u32,
    pub second: u32,
}

#[repr(C)]
pub struct TokenFound {
    pub kind: u8,
    pub value: i32,
    pub end: usize,
}

#[repr(C)]
pub struct FullReading {
    pub refusal: Numbers,
    pub length: u32,
}

#[repr(C)]
pub struct StatementReading {
    pub refusal: Numbers,
    pub found: u8,
    pub length: u32,
    pub ahead: u32,
}

#[repr(C)]
pub struct TokenReading {
    pub refusal: Numbers,
    pub token: TokenFound,
}

#[repr(C)]
pub struct Patching {
    pub refusal: Numbers,
    pub source: usize,
    pub listing: usize,
}

#[repr(C)]
pub struct Valuation {
    pub refusal: Numbers,
    pub value: i32,
}

unsafe extern "C" {
    pub fn laqhoncu_full_read(source: *const u8, length: usize, out: *mut u8, room: usize) -> FullReading;
    pub fn laqhoncu_full_read_lean(source: *const u8, length: usize, out: *mut u8, room: usize) -> FullReading;
    pub fn laqhoncu_patch(
        old: *const u8,
        length: usize,
        listing: *const u8,
        listing_length: usize,
        place: usize,
        text: *const u8,
        text_length: usize,
        source: *mut u8,
        source_room: usize,
        out: *mut u8,
        room: usize,
    ) -> Patching;
    pub fn laqhoncu_statement_read(source: *const u8, length: usize, place: usize, out: *mut u8, room: usize) -> StatementReading;
    pub fn laqhoncu_token_read(source: *const u8, length: usize, place: usize) -> TokenReading;
    pub fn laqhoncu_token(source: *const u8, length: usize, place: usize) -> TokenFound;
    pub fn laqhoncu_count(source: *const u8, length: usize) -> usize;
    pub safe fn laqhoncu_evaluate(operator: u8, left: i32, right: i32) -> Valuation;
    pub fn laqhoncu_operation(word: *const u8, length: usize) -> u8;
    pub fn laqhoncu_name(word: *const u8, length: usize) -> u16;
    pub fn laqhoncu_directive(word: *const u8, length: usize) -> u8;
}
