//! The records of a listing.
use crate::{Encoding, Operator, Register, Segment, Size, Span};
use std::fmt;

/// A record: what the rules call by the mark in front. Children stand before their parents, as in reverse Polish.
///
/// Its text ([`Display`](fmt::Display)) is its line in what the program `listing` prints.
#[derive(Clone, Copy, Debug, PartialEq, Eq, Hash)]
#[allow(missing_docs)] // of fields: each variant says it all
pub enum Record<'a> {
    /// ST: a statement, whose first token is at this place. What stands inside `times` has none.
    Statement { place: usize },
    /// VC: a number, or the character of a quoted text.
    Number { span: Span, value: i32 },
    /// VL: a name; the span is its text.
    Name { span: Span },
    /// VI: `$`
    InstructionStart { span: Span },
    /// VS: `$$`; the span covers the first `$` alone.
    SectionStart { span: Span },
    /// PF: an operator before its operand, which is the expression in front of this record.
    Prefix { span: Span, operator: Operator },
    /// IN: an operator between its operands, the two expressions in front of this record.
    Infix { span: Span, operator: Operator },
    /// OR: a register as an operand.
    Register { span: Span, register: Register },
    /// OS: a segment as an operand.
    Segment { span: Span, segment: Segment },
    /// OI: an expression as an operand.
    Immediate { span: Span },
    /// OF: two expressions with a colon between.
    Far { span: Span },
    /// OD: an expression in brackets.
    Direct { span: Span, size: Option<Size>, segment: Option<Segment> },
    /// OX: registers in brackets, and an expression in front of this record where `displacement` says so.
    Indirect { span: Span, encoding: Encoding, displacement: bool, size: Option<Size>, segment: Option<Segment> },
    /// LL: a label; the span is its name, the colon left out.
    Label { span: Span },
    /// LI: an instruction, its operation's number (0 to 98), how many operands stand in front of this record, and their span.
    Instruction { span: Span, operation: u8, operands: u8, operands_span: Span },
    /// LD: a `db` or `dw` line, and its bytes.
    Data { span: Span, bytes: &'a [u8] },
    /// LC: `equ`, and the expression in front of this record.
    Constant { span: Span },
    /// LT: `times`, the expression and the content in front of this record. Its span is 0..0.
    Times { span: Span },
}

/// Bytes that are no record.
#[derive(Clone, Copy, Debug, PartialEq, Eq, Hash)]
pub struct NoRecord {
    /// Where in the listing.
    pub place: usize,
}

/// The records of a listing, in turn; after bytes that are none, no more. Made by [`records`].
#[derive(Clone, Debug)]
pub struct Records<'a> {
    listing: &'a [u8],
    place: usize,
}

/// Reads the records of a listing, one by one. Bytes with an unknown mark or a number that stands for nothing are no record. Each record is looked
/// at alone, and its places not at all, so not every row of records is a well-formed listing; those that [`full_read`](crate::full_read)
/// writes are.
///
/// ```
/// use laqhoncu::{Record, listing, records};
///
/// let source = b"w1: dw 4464\nscale equ 12/5";
/// for record in records(&listing(source)?) {
///     match record? {
///         Record::Label { span } => assert!(matches!(&source[span.range()], b"w1" | b"scale")),
///         Record::Data { bytes, .. } => assert_eq!(bytes, 4464u16.to_le_bytes()),
///         _ => {}
///     }
/// }
/// # Ok::<(), Box<dyn std::error::Error>>(())
/// ```
pub fn records(listing: &[u8]) -> Records<'_> {
    Records { listing, place: 0 }
}

/// The fields behind a mark, four bytes each, low first.
struct Fields<'a>(&'a [u8]);

impl Fields<'_> {
    fn number(&mut self) -> Option<u32> {
        let (field, rest) = self.0.split_first_chunk()?;
        self.0 = rest;
        Some(u32::from_le_bytes(*field))
    }

    fn span(&mut self) -> Option<Span> {
        Some(Span { from: self.number()? as usize, to: self.number()? as usize })
    }

    fn below(&mut self, limit: u32) -> Option<u32> {
        self.number().filter(|number| *number < limit)
    }

    /// 0 is none.
    fn perhaps<T>(&mut self, of: impl Fn(u32) -> Option<T>) -> Option<Option<T>> {
        match self.number()? {
            0 => Some(None),
            n => of(n - 1).map(Some),
        }
    }
}

/// The first record of a listing, and how many bytes it has.
fn first(listing: &[u8]) -> Option<(Record<'_>, usize)> {
    let (mark, rest) = listing.split_first_chunk::<2>()?;
    let mut f = Fields(rest);
    let record = match mark {
        b"ST" => Record::Statement { place: f.number()? as usize },
        b"VC" => Record::Number { span: f.span()?, value: f.number()? as i32 },
        b"VL" => Record::Name { span: f.span()? },
        b"VI" => Record::InstructionStart { span: f.span()? },
        b"VS" => Record::SectionStart { span: f.span()? },
        b"PF" => Record::Prefix { span: f.span()?, operator: Operator::of(f.below(2)?)? },
        b"IN" => Record::Infix { span: f.span()?, operator: Operator::of(f.number()?)? },
        b"OR" => Record::Register { span: f.span()?, register: Register::of(f.number()?)? },
        b"OS" => Record::Segment { span: f.span()?, segment: Segment::of(f.number()?)? },
        b"OI" => Record::Immediate { span: f.span()? },
        b"OF" => Record::Far { span: f.span()? },
        b"OD" => Record::Direct { span: f.span()?, size: f.perhaps(Size::of)?, segment: f.perhaps(Segment::of)? },
        b"OX" => Record::Indirect {
            span: f.span()?,
            encoding: Encoding::of(f.number()?)?,
            displacement: f.below(2)? == 1,
            size: f.perhaps(Size::of)?,
            segment: f.perhaps(Segment::of)?,
        },
        b"LL" => Record::Label { span: f.span()? },
        b"LI" => {
            Record::Instruction { span: f.span()?, operation: f.below(99)? as u8, operands: f.below(3)? as u8, operands_span: f.span()? }
        }
        b"LD" => {
            let span = f.span()?;
            let count = f.number()? as usize;
            let (bytes, rest) = f.0.split_at_checked(count).filter(|_| count > 0)?;
            f.0 = rest;
            Record::Data { span, bytes }
        }
        b"LC" => Record::Constant { span: f.span()? },
        b"LT" => Record::Times { span: f.span().filter(|span| *span == Span::default())? },
        _ => return None,
    };
    Some((record, listing.len() - f.0.len()))
}

impl<'a> Iterator for Records<'a> {
    type Item = Result<Record<'a>, NoRecord>;

    fn next(&mut self) -> Option<Self::Item> {
        let (place, rest) = (self.place, &self.listing[self.place..]);
        if rest.is_empty() {
            return None;
        }
        Some(match first(rest) {
            Some((record, length)) => {
                self.place += length;
                Ok(record)
            }
            None => {
                self.place = self.listing.len();
                Err(NoRecord { place })
            }
        })
    }
}

impl std::iter::FusedIterator for Records<'_> {}

impl Record<'_> {
    /// The bytes of the source that it stands for; a statement's mark has a place alone.
    pub fn span(&self) -> Option<Span> {
        match *self {
            Record::Statement { .. } => None,
            Record::Number { span, .. }
            | Record::Name { span }
            | Record::InstructionStart { span }
            | Record::SectionStart { span }
            | Record::Prefix { span, .. }
            | Record::Infix { span, .. }
            | Record::Register { span, .. }
            | Record::Segment { span, .. }
            | Record::Immediate { span }
            | Record::Far { span }
            | Record::Direct { span, .. }
            | Record::Indirect { span, .. }
            | Record::Label { span }
            | Record::Instruction { span, .. }
            | Record::Data { span, .. }
            | Record::Constant { span }
            | Record::Times { span } => Some(span),
        }
    }

    /// The two letters that it opens with.
    pub fn mark(&self) -> &'static str {
        match self {
            Record::Statement { .. } => "ST",
            Record::Number { .. } => "VC",
            Record::Name { .. } => "VL",
            Record::InstructionStart { .. } => "VI",
            Record::SectionStart { .. } => "VS",
            Record::Prefix { .. } => "PF",
            Record::Infix { .. } => "IN",
            Record::Register { .. } => "OR",
            Record::Segment { .. } => "OS",
            Record::Immediate { .. } => "OI",
            Record::Far { .. } => "OF",
            Record::Direct { .. } => "OD",
            Record::Indirect { .. } => "OX",
            Record::Label { .. } => "LL",
            Record::Instruction { .. } => "LI",
            Record::Data { .. } => "LD",
            Record::Constant { .. } => "LC",
            Record::Times { .. } => "LT",
        }
    }
}

impl fmt::Display for Record<'_> {
    fn fmt(&self, f: &mut fmt::Formatter) -> fmt::Result {
        f.write_str(self.mark())?;
        if let Some(span) = self.span() {
            write!(f, " {} {}", span.from, span.to)?;
        }
        // 0 is none.
        let perhaps = |number: Option<u8>| number.map_or(0, |n| n + 1);
        match *self {
            Record::Statement { place } => write!(f, " {place}"),
            Record::Number { value, .. } => write!(f, " {value}"),
            Record::Prefix { operator, .. } | Record::Infix { operator, .. } => write!(f, " {}", operator.number()),
            Record::Register { register, .. } => write!(f, " {}", register.number()),
            Record::Segment { segment, .. } => write!(f, " {}", segment.number()),
            Record::Direct { size, segment, .. } => {
                write!(f, " {} {}", perhaps(size.map(Size::number)), perhaps(segment.map(Segment::number)))
            }
            Record::Indirect { encoding, displacement, size, segment, .. } => {
                write!(f, " {} {}", encoding.number(), displacement as u8)?;
                write!(f, " {} {}", perhaps(size.map(Size::number)), perhaps(segment.map(Segment::number)))
            }
            Record::Instruction { operation, operands, operands_span, .. } => {
                write!(f, " {operation} {operands} {} {}", operands_span.from, operands_span.to)
            }
            Record::Data { bytes, .. } => {
                write!(f, " {}", bytes.len())?;
                bytes.iter().try_for_each(|byte| write!(f, " {byte}"))
            }
            _ => Ok(()),
        }
    }
}

impl fmt::Display for NoRecord {
    fn fmt(&self, f: &mut fmt::Formatter) -> fmt::Result {
        write!(f, "byte {} of the listing begins no record", self.place)
    }
}

impl std::error::Error for NoRecord {}
