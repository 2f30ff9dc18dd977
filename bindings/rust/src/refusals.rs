//! Why a call refuses: the rules' numbers, under the names that include/laqhoncu.h gives them, and words for a person.
use crate::{Register, Span};
use std::fmt;

/// The one table: a name, its number, and the words.
macro_rules! refusals {
    ($($name:ident $number:literal $words:literal,)+) => {
        $(#[doc = concat!($number, ": ", $words, ".")] pub const $name: u8 = $number;)+

        /// Each refusal's name, number and words, by rising numbers.
        pub const ALL: &[(&str, u8, &str)] = &[$((stringify!($name), $number, $words),)+];
    };
}

refusals! {
    SOURCE_TOO_LONG 1 "a file may have at most 65,536 bytes",
    NOT_ASCII 2 "a character that is not ASCII",
    EXPRESSION_TOO_DEEP 3 "the expression is nested more than 32 deep",
    LISTING_NO_ROOM 4 "the listing is longer than there is room for",
    TIMES_TOO_DEEP 5 "`times` is nested more than 16 deep",
    SOURCE_NO_ROOM 6 "the edited file is longer than there is room for",
    LINE_END_EXPECTED 10 "the end of the line is expected",
    COMMA_EXPECTED 11 "a comma is expected",
    COLON_EXPECTED 12 "a colon is expected",
    CLOSE_BRACKET_EXPECTED 13 "a closing bracket `]` is expected",
    CLOSE_PARENTHESIS_EXPECTED 14 "a closing parenthesis `)` is expected",
    LITERAL_EXPECTED 15 "a number or a quoted text is expected",
    CLOSED_STRING_EXPECTED 16 "a quoted text with its closing quote is expected",
    ONE_CHARACTER_EXPECTED 17 "a quoted text of one character is expected",
    INSTRUCTION_EXPECTED 20 "an instruction is expected",
    OPERAND_EXPECTED 21 "a value or an operand is expected",
    INVALID_PREFIX_OPERATOR 22 "`*` or `/` stands where a value should begin",
    DATA_DEFINITION_WITHOUT_DATA 23 "`db` or `dw` has no data",
    SEGMENT_OR_ADDRESS_EXPECTED 24 "a segment or an address is expected in the bracket",
    INVALID_INDIRECT_ENCODING 25 "these registers make no address",
    UNTERMINATED_STRING_LITERAL 26 "a quoted text is not closed",
    BINARY_LARGER_DIGIT 30 "a binary number has a digit above 1",
    PREFIXED_TOO_LARGE 31 "a number is above 2,147,483,647",
    NOTHING_AFTER_OVERRIDE 32 "nothing stands behind the segment in the bracket",
    TWO_INDEX_REGISTERS 33 "si or di cannot be added to si or di",
    TIMES_WITHOUT_CONTENT 34 "`times` has no content",
    TIMES_LEFT_OPEN 40 "the line, its new text or the line above it leaves `times` without its content",
    LISTING_NOT_WELL_FORMED 41 "the listing is not well-formed",
    NO_SUCH_PLACE 42 "there is no such place, or no line begins there",
    LINE_FEED_IN_TEXT 43 "the new text has a line feed, and must be one line",
    BEYOND_32_BITS 50 "the result is beyond 32 bits",
    ZERO_DIVISOR 51 "the divisor is 0",
    NUMBER_TOO_WIDE 60 "a number is above 255 in `db`, or above 65,535 in `dw`",
}

/// Why a call did not do its work. Nothing that was lent to it has changed.
///
/// Its text ([`Display`](fmt::Display)) is for a person, and leaves the place to whoever knows the file:
///
/// ```
/// let refused = laqhoncu::listing(b"mov [ ax],bx").unwrap_err();
/// assert_eq!((refused.number, refused.span.from, refused.span.to), (25, 6, 5));
/// assert_eq!(refused.first, Some(laqhoncu::Register::Ax));
/// assert_eq!(refused.to_string(), "these registers make no address: ax");
/// ```
#[derive(Clone, Copy, Debug, PartialEq, Eq, Hash)]
pub struct Refusal {
    /// Which of [`ALL`].
    pub number: u8,
    /// The bytes that it is about; of the patch, in the edited source. 0..0 is no place: see [`Refusal::place`].
    pub span: Span,
    /// The registers that make no address, at [`INVALID_INDIRECT_ENCODING`] alone.
    pub first: Option<Register>,
    /// As `first`, where there are two.
    pub second: Option<Register>,
}

impl Refusal {
    /// A refusal without registers.
    pub fn at(number: u8, from: usize, to: usize) -> Self {
        Self { number, span: Span { from, to }, first: None, second: None }
    }

    /// What it says to a person, registers left out.
    pub fn words(&self) -> &'static str {
        ALL.iter().find(|row| row.1 == self.number).map_or("it is refused", |row| row.2)
    }

    /// The span, if there is one: no refusal at a place has the span 0..0.
    ///
    /// ```
    /// let place = |source: &[u8]| laqhoncu::listing(source).unwrap_err().place().map(|span| span.from);
    /// assert_eq!((place(b"equ 2 3"), place(b"equ *5")), (Some(6), None));
    /// ```
    pub fn place(&self) -> Option<Span> {
        (self.span != Span { from: 0, to: 0 }).then_some(self.span)
    }
}

impl fmt::Display for Refusal {
    fn fmt(&self, f: &mut fmt::Formatter) -> fmt::Result {
        f.write_str(self.words())?;
        match (self.first, self.second) {
            (Some(first), Some(second)) => write!(f, ": {first} and {second}"),
            (Some(first), None) => write!(f, ": {first}"),
            _ => Ok(()),
        }
    }
}

impl std::error::Error for Refusal {}
