//! A call of the patch, and what it says and writes.
use crate::escapes::escaped;
use crate::lent::{filled, left};
use laqhoncu::Refusal;

pub struct Call<'a> {
    pub source: &'a [u8],
    pub listing: &'a [u8],
    /// where the line begins that is exchanged
    pub place: usize,
    pub text: &'a [u8],
}

/// The edited source and its listing.
pub type Patched = Result<(Vec<u8>, Vec<u8>), Refusal>;

/// A patch: writes the edited source and its listing into the two buffers and gives their lengths, or refuses.
pub trait Patch: FnMut(&Call, &mut [u8], &mut [u8]) -> Result<laqhoncu::Patched, Refusal> {}
impl<F: FnMut(&Call, &mut [u8], &mut [u8]) -> Result<laqhoncu::Patched, Refusal>> Patch for F {}

/// One call, lent so many bytes of a pattern: what it says, with the bytes that it wrote. Panics where it wrote others.
pub fn called(ours: &mut impl Patch, call: &Call, source_room: usize, listing_room: usize) -> Patched {
    let (mut source, mut listing) = (filled(source_room), filled(listing_room));
    let said = ours(call, &mut source, &mut listing);
    let (s, l) = said.map_or((0, 0), |written| (written.source, written.listing));
    assert!(left(&source, s) && left(&listing, l), "wrote beyond its result: {}", shown(call));
    said.map(|_| (source[..s].to_vec(), listing[..l].to_vec()))
}

pub fn shown(call: &Call) -> String {
    let Call { source, listing, place, text } = *call;
    format!("{} at {place}: {}, listing {}", escaped(source), escaped(text), escaped(listing))
}
