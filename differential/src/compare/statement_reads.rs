//! Compares statement reads with the model's, at places of a source; and the model's with the original's.
use super::Met;
use crate::answer::StatementAnswer;
#[cfg(original)]
use crate::beside::Asked;
use crate::escapes::escaped;
use crate::lent::{fill, left};
use crate::model::Rules;
use crate::sources;
use laqhoncu::{Refusal, Statement};

/// A statement read: writes the records into the buffer and says what it found, or that no statement is left, or refuses.
pub trait StatementRead: FnMut(&[u8], usize, &mut [u8]) -> Result<Option<Statement>, Refusal> {}
impl<F: FnMut(&[u8], usize, &mut [u8]) -> Result<Option<Statement>, Refusal>> StatementRead for F {}

/// Compares a statement read with the expected one at places of a source.
pub struct Compare<F> {
    rules: Rules,
    ours: F,
    pub reads: u64,
    /// reads that are others by RULES 14.2
    pub lettered: u64,
    pub written: u64,
    pub none_left: u64,
    pub met: Met,
    #[cfg(original)]
    pub asked: Asked,
}

impl<F: StatementRead> Compare<F> {
    pub fn new(rules: Rules, ours: F) -> Self {
        Self {
            rules,
            ours,
            reads: 0,
            lettered: 0,
            written: 0,
            none_left: 0,
            met: Met::default(),
            #[cfg(original)]
            asked: Asked::default(),
        }
    }

    /// Panics with both answers where they differ.
    pub fn at(&mut self, source: &[u8], place: usize) {
        let expected = self.rules.statement_read(source, place);
        #[cfg(original)]
        self.asked.statement_read(source, place);
        self.reads += 1;
        self.lettered += (expected != self.rules.suffix_first().statement_read(source, place)) as u64;
        match &expected {
            Ok(Some((listing, _))) => {
                self.written += 1;
                self.with_room(source, place, &expected, listing.len());
                self.with_room(source, place, &Err(Refusal::at(4, 0, 0)), listing.len() - 1);
            }
            Ok(None) => self.none_left += 1,
            Err(refusal) => {
                self.met.add(refusal);
                self.with_room(source, place, &expected, 0);
            }
        }
        self.with_room(source, place, &expected, 18 * source.len() + 3);
    }

    fn with_room(&mut self, source: &[u8], place: usize, expected: &StatementAnswer, room: usize) {
        let mut buffer = Vec::new();
        fill(&mut buffer, room);
        let answer = (self.ours)(source, place, &mut buffer);
        let said = answer.map(|read| read.map(|read| (buffer[..read.length].to_vec(), read.ahead)));
        let called = || format!("{} at {place}", escaped(source));
        assert!(said == *expected, "{}\nlent {room} bytes\nexpected {expected:?}\nsaid {said:?}", called());
        let written = said.ok().flatten().map_or(0, |(listing, _)| listing.len());
        assert!(left(&buffer, written), "wrote beyond its result: {}", called());
    }

    /// Short sources at every place and one beyond, longer ones at a few.
    pub fn all(&mut self, scale: u64) {
        let mut turn = 0;
        sources::all(scale, &mut |source| {
            turn += 1;
            if source.len() > 4096 {
                self.at(source, 0);
                self.at(source, source.len() / 2);
                self.at(source, source.len());
            } else if turn % 8 == 0 && source.len() < 64 {
                (0..=source.len() + 1).for_each(|place| self.at(source, place));
            } else if turn % 4 == 0 {
                self.at(source, turn % (source.len() + 2));
            }
        });
    }
}
