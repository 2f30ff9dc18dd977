//! A reader and line editor for 8086 assembly marker files, over a library whose every function is proved against its contract.
//!
//! The work is done by `liblaqhoncu.a`: it uses no heap, keeps nothing after a call, and at a refusal leaves everything that it was lent as
//! it was. This package hands slices over and gives the answers types; [`listing`] is the one function that allocates. A source has at most
//! [`SOURCE_MAX`] bytes, all of them ASCII; a listing is at most [`LISTING_FACTOR`] times as long as its source.
//!
//! Read a source, exchange its second line, and look at what the listing says now:
//!
//! ```
//! use laqhoncu::{LISTING_FACTOR, Record, SOURCE_MAX, listing, patch, records};
//!
//! let old = b"scale equ 12/5\nw1: dw 4464\n";
//! let (mut source, mut out) = (vec![0; SOURCE_MAX], vec![0; LISTING_FACTOR * SOURCE_MAX]);
//! let patched = patch(old, &listing(old)?, 15, b"w1: dw 4470", &mut source, &mut out)?;
//! assert_eq!(&source[..patched.source], b"scale equ 12/5\nw1: dw 4470\n");
//! assert_eq!(out[..patched.listing], listing(&source[..patched.source])?);
//!
//! let last = records(&out[..patched.listing]).last().unwrap()?;
//! assert!(matches!(last, Record::Data { bytes: [0x76, 0x11], .. }));
//! assert_eq!(last.to_string(), "LD 19 26 2 118 17");
//! # Ok::<(), Box<dyn std::error::Error>>(())
//! ```
//!
//! A call needs stack: the header `laqhoncu.h` says how much, up to 348 KiB. The stack that a Rust thread has by default is long enough; for one with
//! little there is [`full_read_lean`].

#![warn(missing_docs)]

mod ffi;
mod names;
mod records;
pub mod refusals;

pub use names::{Directive, Encoding, Name, Operator, Register, Segment, Size};
pub use records::{NoRecord, Record, Records, records};
pub use refusals::Refusal;

use std::fmt;
use std::ops::Range;

/// The most bytes that a source may have.
pub const SOURCE_MAX: usize = 65_536;

/// A listing has at most so many bytes for each byte of its source.
pub const LISTING_FACTOR: usize = 18;

/// Some bytes of a source, `to` not included. At [`INVALID_INDIRECT_ENCODING`](refusals::INVALID_INDIRECT_ENCODING) `to` may be below `from`.
#[derive(Clone, Copy, Debug, Default, PartialEq, Eq, Hash)]
pub struct Span {
    /// The place of the first byte.
    pub from: usize,
    /// The place behind the last byte.
    pub to: usize,
}

impl Span {
    /// As a range to take a part of the source with; empty where `to` is below `from`.
    pub fn range(self) -> Range<usize> {
        self.from..self.to.max(self.from)
    }
}

impl fmt::Display for Span {
    fn fmt(&self, f: &mut fmt::Formatter) -> fmt::Result {
        write!(f, "{}..{}", self.from, self.to)
    }
}

/// A token, and the bytes that it has.
#[derive(Clone, Copy, Debug, PartialEq, Eq, Hash)]
pub struct Token {
    /// What it is.
    pub kind: TokenKind,
    /// Its bytes.
    pub span: Span,
}

/// What a token is.
#[derive(Clone, Copy, Debug, PartialEq, Eq, Hash)]
pub enum TokenKind {
    /// Spaces, tabs and CR.
    Whitespace,
    /// From `;` to before the line feed.
    Comment,
    /// A line feed.
    NewLine,
    /// Nothing is left; the one token without a byte.
    EndOfFile,
    /// A word, as a name, an operation or a register: a letter or `_`, then letters, digits, `_` and dots.
    Identifier,
    /// A number, and its value.
    Number(i32),
    /// A quoted text.
    Text {
        /// Whether its closing quote is there, in the same line.
        closed: bool,
    },
    /// One of `[ ] ( ) : , $ . / - + *`
    Punctuation(u8),
    /// A byte that begins no other token.
    Invalid(u8),
}

/// A statement that was read.
#[derive(Clone, Copy, Debug, PartialEq, Eq, Hash)]
pub struct Statement {
    /// How many bytes its records have.
    pub length: usize,
    /// Where the token behind it is: the place to read the next one at.
    pub ahead: usize,
}

/// What the patch has written.
#[derive(Clone, Copy, Debug, PartialEq, Eq, Hash)]
pub struct Patched {
    /// How many bytes the edited source has.
    pub source: usize,
    /// How many bytes its listing has.
    pub listing: usize,
}

/// What no library of this version answers.
#[cold]
fn unknown(what: &str, number: u32) -> ! {
    panic!("liblaqhoncu.a is not of version {}: {what} {number}", env!("CARGO_PKG_VERSION"))
}

impl ffi::Numbers {
    /// The refusal that these numbers say, if they say one.
    #[inline]
    fn accepted(self) -> Result<(), Refusal> {
        if self.number == 0 {
            return Ok(());
        }
        let register = |number| match number {
            255 => None,
            _ => Some(Register::of(number).unwrap_or_else(|| unknown("register", number))),
        };
        Err(Refusal {
            number: u8::try_from(self.number).unwrap_or_else(|_| unknown("refusal", self.number)),
            span: Span { from: self.from as usize, to: self.to as usize },
            first: register(self.first),
            second: register(self.second),
        })
    }
}

/// Reads all statements of a source and writes its listing, from the buffer's first byte on: how many bytes that are.
///
/// A buffer of [`LISTING_FACTOR`] times the source is always long enough; one that is too short is refused with
/// [`LISTING_NO_ROOM`](refusals::LISTING_NO_ROOM), and keeps its bytes, as at every refusal.
///
/// ```
/// let mut out = [0; 64];
/// let length = laqhoncu::full_read(b"k equ 2\n", &mut out)?;
/// let lines: Vec<String> = laqhoncu::records(&out[..length]).map(|record| record.unwrap().to_string()).collect();
/// assert_eq!(lines, ["ST 0", "LL 0 1", "ST 2", "VC 6 7 2", "LC 2 7"]);
/// # Ok::<(), laqhoncu::Refusal>(())
/// ```
#[inline]
pub fn full_read(source: &[u8], out: &mut [u8]) -> Result<usize, Refusal> {
    // SAFETY: here as in every call below, each pointer and the length behind it are one slice's, and no slice that is written overlaps another.
    let said = unsafe { ffi::laqhoncu_full_read(source.as_ptr(), source.len(), out.as_mut_ptr(), out.len()) };
    said.refusal.accepted().map(|()| said.length as usize)
}

/// [`full_read`] for a thread with little stack: the same answers and the same bytes, with 28 KiB of stack in place of 348.
///
/// The records are measured, and then read again to be written, which takes about twice as long.
///
/// ```
/// let thread = std::thread::Builder::new().stack_size(64 * 1024);
/// let read = thread.spawn(|| laqhoncu::full_read_lean(b"k equ 2\n", &mut [0; 64]));
/// assert_eq!(read.unwrap().join().unwrap(), laqhoncu::full_read(b"k equ 2\n", &mut [0; 64]));
/// ```
#[inline]
pub fn full_read_lean(source: &[u8], out: &mut [u8]) -> Result<usize, Refusal> {
    let said = unsafe { ffi::laqhoncu_full_read_lean(source.as_ptr(), source.len(), out.as_mut_ptr(), out.len()) };
    said.refusal.accepted().map(|()| said.length as usize)
}

/// The listing of a source, in a buffer of its own.
///
/// ```
/// assert_eq!(laqhoncu::listing(b"; nothing")?, []);
/// assert_eq!(laqhoncu::listing(b"dw 12b").unwrap_err().number, laqhoncu::refusals::BINARY_LARGER_DIGIT);
/// # Ok::<(), laqhoncu::Refusal>(())
/// ```
pub fn listing(source: &[u8]) -> Result<Vec<u8>, Refusal> {
    // A longer source is refused for that, whatever the room.
    let mut out = vec![0; LISTING_FACTOR * source.len().min(SOURCE_MAX)];
    let length = full_read(source, &mut out)?;
    out.truncate(length);
    Ok(out)
}

/// Exchanges the line that begins at `place` of a source for a text: writes the edited source and its listing, each from the first byte of
/// its buffer on.
///
/// `listing` is the old source's; only the new line is read. Where a line begins at `place`, the text has no line feed and `source` is long enough,
/// the answer is the full read's of the edited source, as long as neither the line, nor the text, nor the nearest line above that holds more
/// than a comment leaves a `times` without its content
/// ([`TIMES_LEFT_OPEN`](refusals::TIMES_LEFT_OPEN)).
///
/// ```
/// let old = b"nop\nret";
/// let (mut source, mut out) = ([0; 16], [0; 128]);
/// let patched = laqhoncu::patch(old, &laqhoncu::listing(old)?, 4, b"hlt", &mut source, &mut out)?;
/// assert_eq!(&source[..patched.source], b"nop\nhlt");
/// assert_eq!(out[..patched.listing], laqhoncu::listing(b"nop\nhlt")?);
/// # Ok::<(), laqhoncu::Refusal>(())
/// ```
#[inline]
pub fn patch(old: &[u8], listing: &[u8], place: usize, text: &[u8], source: &mut [u8], out: &mut [u8]) -> Result<Patched, Refusal> {
    let said = unsafe {
        ffi::laqhoncu_patch(
            old.as_ptr(),
            old.len(),
            listing.as_ptr(),
            listing.len(),
            place,
            text.as_ptr(),
            text.len(),
            source.as_mut_ptr(),
            source.len(),
            out.as_mut_ptr(),
            out.len(),
        )
    };
    said.refusal.accepted().map(|()| Patched { source: said.source, listing: said.listing })
}

/// Reads the statement at a place and writes its records, from the buffer's first byte on; None where no statement is left.
///
/// ```
/// let source = b"a: nop ; first\nret";
/// let (mut out, mut place, mut count) = ([0; 256], 0, 0);
/// while let Some(statement) = laqhoncu::statement_read(source, place, &mut out)? {
///     (place, count) = (statement.ahead, count + 1);
/// }
/// assert_eq!(count, 3);
/// # Ok::<(), laqhoncu::Refusal>(())
/// ```
#[inline]
pub fn statement_read(source: &[u8], place: usize, out: &mut [u8]) -> Result<Option<Statement>, Refusal> {
    let said = unsafe { ffi::laqhoncu_statement_read(source.as_ptr(), source.len(), place, out.as_mut_ptr(), out.len()) };
    said.refusal.accepted()?;
    Ok((said.found != 0).then_some(Statement { length: said.length as usize, ahead: said.ahead as usize }))
}

/// The token that a C struct says.
#[inline]
fn token_of(found: ffi::TokenFound, from: usize) -> Result<Token, Refusal> {
    let kind = match found.kind {
        0 => TokenKind::EndOfFile,
        b'\n' => TokenKind::NewLine,
        b' ' => TokenKind::Whitespace,
        b';' => TokenKind::Comment,
        b'a' => TokenKind::Identifier,
        b'0' => TokenKind::Number(found.value),
        b'\'' => TokenKind::Text { closed: true },
        b'"' => TokenKind::Text { closed: false },
        b'!' => TokenKind::Invalid(found.value as u8),
        refusals::BINARY_LARGER_DIGIT | refusals::PREFIXED_TOO_LARGE => return Err(Refusal::at(found.kind, from, found.end)),
        kind @ (b']' | b')' | b':' | b',' | b'$' | b'.' | b'/' | b'-' | b'[' | b'(' | b'+' | b'*') => TokenKind::Punctuation(kind),
        kind => unknown("token", kind.into()),
    };
    Ok(Token { kind, span: Span { from, to: found.end } })
}

/// The token at a place, after the tests that every call makes of the place and of the whole source.
///
/// ```
/// use laqhoncu::{Span, Token, TokenKind, token_read};
///
/// assert_eq!(token_read(b"dw 17o", 3)?, Token { kind: TokenKind::Number(15), span: Span { from: 3, to: 6 } });
/// assert_eq!(token_read(b"dw", 3).unwrap_err().number, laqhoncu::refusals::NO_SUCH_PLACE);
/// # Ok::<(), laqhoncu::Refusal>(())
/// ```
#[inline]
pub fn token_read(source: &[u8], place: usize) -> Result<Token, Refusal> {
    let said = unsafe { ffi::laqhoncu_token_read(source.as_ptr(), source.len(), place) };
    said.refusal.accepted()?;
    token_of(said.token, place)
}

/// The token at a place without these tests, so that a row of tokens takes time for each byte once. Beyond the end it is the end of file.
///
/// ```
/// use laqhoncu::{TokenKind, token};
///
/// let source = b"w1.a: dw 'ok'";
/// let (mut place, mut texts) = (0, Vec::new());
/// loop {
///     let token = token(source, place)?;
///     match token.kind {
///         TokenKind::EndOfFile => break,
///         TokenKind::Whitespace => {}
///         _ => texts.push(&source[token.span.range()]),
///     }
///     place = token.span.to;
/// }
/// assert_eq!(texts, [b"w1.a" as &[u8], b":", b"dw", b"'ok'"]);
/// # Ok::<(), laqhoncu::Refusal>(())
/// ```
#[inline]
pub fn token(source: &[u8], place: usize) -> Result<Token, Refusal> {
    let found = unsafe { ffi::laqhoncu_token(source.as_ptr(), source.len(), place) };
    token_of(found, place)
}

/// How many tokens a source has, whitespace and comments among them, the end of file left out.
///
/// ```
/// assert_eq!(laqhoncu::count(b"dw 1, 2 ; two"), 8);
/// ```
#[inline]
pub fn count(source: &[u8]) -> usize {
    unsafe { ffi::laqhoncu_count(source.as_ptr(), source.len()) }
}

/// The exact sum, difference or product, or the quotient truncated toward zero.
///
/// ```
/// use laqhoncu::{Operator, evaluate, refusals};
///
/// assert_eq!(evaluate(Operator::Divide, -7, 2), Ok(-3));
/// assert_eq!(evaluate(Operator::Divide, 1, 0).unwrap_err().number, refusals::ZERO_DIVISOR);
/// assert_eq!(evaluate(Operator::Add, i32::MAX, 1).unwrap_err().number, refusals::BEYOND_32_BITS);
/// ```
#[inline]
pub fn evaluate(operator: Operator, left: i32, right: i32) -> Result<i32, Refusal> {
    let said = ffi::laqhoncu_evaluate(operator.number(), left, right);
    said.refusal.accepted().map(|()| said.value)
}

/// The number of the operation that a word names (0 `mov` to 98 `salc`), case ignored.
///
/// ```
/// assert_eq!((laqhoncu::operation(b"JMP"), laqhoncu::operation(b"weld")), (Some(59), None));
/// ```
#[inline]
pub fn operation(word: &[u8]) -> Option<u8> {
    match unsafe { ffi::laqhoncu_operation(word.as_ptr(), word.len()) } {
        255 => None,
        number => Some(number),
    }
}

/// The register, segment or size that a word names, case ignored.
///
/// ```
/// use laqhoncu::{Name, Register, Segment, Size, name};
///
/// assert_eq!(name(b"Ax"), Some(Name::Register(Register::Ax)));
/// assert_eq!((name(b"es"), name(b"word")), (Some(Name::Segment(Segment::Es)), Some(Name::Size(Size::Word))));
/// assert_eq!((name(b"w1"), name(b"ax.b")), (None, None));
/// ```
#[inline]
pub fn name(word: &[u8]) -> Option<Name> {
    let number = unsafe { ffi::laqhoncu_name(word.as_ptr(), word.len()) } as u32;
    let name = match number {
        65535 => return None,
        0..256 => Register::of(number).map(Name::Register),
        256..512 => Segment::of(number - 256).map(Name::Segment),
        _ => Size::of(number - 512).map(Name::Size),
    };
    Some(name.unwrap_or_else(|| unknown("name", number)))
}

/// The directive that a word names, case ignored.
///
/// ```
/// assert_eq!((laqhoncu::directive(b"DW"), laqhoncu::directive(b"dd")), (Some(laqhoncu::Directive::Dw), None));
/// ```
#[inline]
pub fn directive(word: &[u8]) -> Option<Directive> {
    match unsafe { ffi::laqhoncu_directive(word.as_ptr(), word.len()) } as u32 {
        255 => None,
        number => Some(Directive::of(number).unwrap_or_else(|| unknown("directive", number))),
    }
}
