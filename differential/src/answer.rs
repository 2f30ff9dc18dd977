//! What a full read, a statement read and a lookup answer, in the form in which the library, the model and the original are compared.
use laqhoncu::{Directive, Name, Refusal, Span};

/// Of a full read: the bytes of the listing, or why there is none.
pub type Answer = Result<Vec<u8>, Refusal>;

/// Of a statement read: the records and the place of the token ahead, or that no statement is left.
pub type StatementAnswer = Result<Option<(Vec<u8>, usize)>, Refusal>;

/// The refusal of a part of a source that begins at a place, as one of the whole. 22 has no place.
pub fn moved(refusal: Refusal, place: usize) -> Refusal {
    let Span { from, to } = refusal.span;
    match refusal.number {
        22 => refusal,
        _ => Refusal { span: Span { from: from + place, to: to + place }, ..refusal },
    }
}

/// What a word names.
#[derive(Clone, Copy, Debug, Default, PartialEq, Eq)]
pub struct Named {
    pub operation: Option<u8>,
    pub name: Option<Name>,
    pub directive: Option<Directive>,
}
