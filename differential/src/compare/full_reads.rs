//! Compares full reads with the model's: answer, bytes written, and what must be left as it was; and the model's with the original's.
use super::Met;
use crate::answer::Answer;
#[cfg(original)]
use crate::beside::Asked;
use crate::escapes::escaped;
use crate::lent::{fill, left};
use crate::listings::shown;
use crate::model::Rules;
use crate::sources;
use laqhoncu::Refusal;

/// A full read: writes the listing into the buffer and gives its length, or refuses.
pub trait FullRead: FnMut(&[u8], &mut [u8]) -> Result<usize, Refusal> {}
impl<F: FnMut(&[u8], &mut [u8]) -> Result<usize, Refusal>> FullRead for F {}

/// What was compared.
#[derive(Clone, Copy, Debug, Default)]
pub struct Count {
    pub sources: u64,
    pub accepted: u64,
    pub records_bytes: u64,
    /// sources that RULES 14.2 reads otherwise
    pub lettered: u64,
    /// calls of the second full read
    pub second: u64,
}

/// A full read that keeps nothing.
pub type Plain = fn(&[u8], &mut [u8]) -> Result<usize, Refusal>;

pub struct Compare<F> {
    rules: Rules,
    ours: F,
    second: Option<Plain>,
    buffer: Vec<u8>,
    pub count: Count,
    pub met: Met,
    #[cfg(original)]
    pub asked: Asked,
}

impl<F: FullRead> Compare<F> {
    pub fn new(rules: Rules, ours: F) -> Self {
        Self {
            rules,
            ours,
            second: None,
            buffer: Vec::new(),
            count: Count::default(),
            met: Met::default(),
            #[cfg(original)]
            asked: Asked::default(),
        }
    }

    /// A second full read, which is asked all that the first is asked.
    pub fn beside(self, second: Plain) -> Self {
        Self { second: Some(second), ..self }
    }

    /// Panics with both answers where they differ.
    pub fn source(&mut self, source: &[u8]) {
        let expected = self.rules.full_read(source);
        #[cfg(original)]
        self.asked.full_read(source);
        self.count.sources += 1;
        self.count.lettered += (expected != self.rules.suffix_first().full_read(source)) as u64;
        match &expected {
            Ok(listing) => {
                self.count.accepted += 1;
                self.count.records_bytes += listing.len() as u64;
                assert!(listing.len() <= 18 * source.len(), "a listing above 18 times its source: {}", escaped(source));
            }
            Err(refusal) => self.met.add(refusal),
        }
        self.with_room(source, &expected, 18 * source.len() + 3);
        if let Ok(listing) = &expected {
            let length = listing.len();
            self.with_room(source, &expected, length);
            if length > 0 {
                self.with_room(source, &Err(Refusal::at(4, 0, 0)), length - 1);
            }
        } else {
            self.with_room(source, &expected, 0);
        }
    }

    fn with_room(&mut self, source: &[u8], expected: &Answer, room: usize) {
        answers("the full read", &mut self.ours, source, expected, &mut self.buffer, room);
        if let Some(second) = &mut self.second {
            self.count.second += 1;
            answers("the second full read", second, source, expected, &mut self.buffer, room);
        }
    }

    /// Every source of the usual run. `scale` 1 takes some seconds.
    pub fn all(&mut self, scale: u64) {
        sources::all(scale, &mut |source| self.source(source));
    }
}

/// Panics where a full read that is lent so many bytes answers or writes otherwise.
fn answers(which: &str, read: &mut impl FullRead, source: &[u8], expected: &Answer, buffer: &mut Vec<u8>, room: usize) {
    fill(buffer, room);
    let said: Answer = read(source, buffer).map(|length| buffer[..length].to_vec());
    if said != *expected {
        panic!("{which}: {}\nlent {room} bytes\nexpected\n{}said\n{}", escaped(source), shown(expected), shown(&said));
    }
    let written = said.map_or(0, |listing| listing.len());
    assert!(left(buffer, written), "{which} wrote beyond its result: {}", escaped(source));
}
