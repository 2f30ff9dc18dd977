//! Compares the lookup of words with the model's, and the model's with the original's.
use crate::answer::Named;
#[cfg(original)]
use crate::beside::Asked;
use crate::escapes::escaped;
use crate::model::Rules;
use crate::sources::words;

/// What a word names, as ours says it.
pub trait Lookup: FnMut(&[u8]) -> Named {}
impl<F: FnMut(&[u8]) -> Named> Lookup for F {}

pub struct Compare<F> {
    rules: Rules,
    ours: F,
    pub words: u64,
    pub named: u64,
    #[cfg(original)]
    pub asked: Asked,
}

impl<F: Lookup> Compare<F> {
    pub fn new(rules: Rules, ours: F) -> Self {
        Self {
            rules,
            ours,
            words: 0,
            named: 0,
            #[cfg(original)]
            asked: Asked::default(),
        }
    }

    /// Panics where the two differ.
    pub fn word(&mut self, word: &[u8]) {
        let expected = self.rules.named(word);
        #[cfg(original)]
        self.asked.word(std::str::from_utf8(word).unwrap());
        let said = (self.ours)(word);
        assert!(said == expected, "{}\nexpected {expected:?}\nsaid     {said:?}", escaped(word));
        self.words += 1;
        self.named += (expected != Named::default()) as u64;
    }

    /// Every word of the usual run.
    pub fn all(&mut self, most: usize) {
        words::all(most, &mut |word| self.word(word));
    }
}
