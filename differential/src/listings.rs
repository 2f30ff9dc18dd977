//! Listings as bytes that are written here, with nothing of the library or the package; and listings and answers as text, and back.
use crate::answer::Answer;
use laqhoncu::{NoRecord, Refusal, Register};

/// A listing that is being written; spans are moved by `base`.
pub struct Listing {
    pub bytes: Vec<u8>,
    pub base: usize,
}

impl Listing {
    pub fn span(&self, span: &std::ops::Range<usize>) -> [u32; 2] {
        [(self.base + span.start) as u32, (self.base + span.end) as u32]
    }

    /// A record opens with its mark; each field has four bytes, low first.
    pub fn record(&mut self, mark: &str, fields: &[u32]) {
        self.bytes.extend_from_slice(mark.as_bytes());
        for field in fields {
            self.bytes.extend_from_slice(&field.to_le_bytes());
        }
    }
}

/// The bytes of records given as the program `listing` prints them, `; ` between two; of data, the count and then the bytes.
pub fn records(text: &str) -> Vec<u8> {
    let mut listing = Listing { bytes: Vec::new(), base: 0 };
    for record in text.split("; ").filter(|record| !record.is_empty()) {
        let (mark, fields) = record.split_once(' ').unwrap();
        let fields: Vec<u32> = fields.split(' ').map(|field| field.parse().unwrap()).collect();
        let (fields, data) = fields.split_at(if mark == "LD" { 3 } else { fields.len() });
        listing.record(mark, fields);
        listing.bytes.extend(data.iter().map(|byte| u8::try_from(*byte).unwrap()));
    }
    listing.bytes
}

/// A listing as the program `listing` prints it; what is no listing ends in its rest, in hexadecimal.
pub fn lines(listing: &[u8]) -> String {
    let (mut text, mut count) = (String::new(), 0);
    for record in laqhoncu::records(listing) {
        match record {
            Ok(record) => {
                text += &format!("{record}\n");
                count += 1;
            }
            Err(NoRecord { place }) => text += &format!("?? {:02x?}\n", &listing[place..]),
        }
    }
    text + &format!("END {count}\n")
}

/// An answer as the program `listing` prints it.
pub fn shown(answer: &Answer) -> String {
    match answer {
        Ok(listing) => lines(listing),
        Err(refusal) => {
            let register = |register: Option<Register>| register.map_or(255, Register::number);
            let Refusal { number, span, first, second } = *refusal;
            format!("REF {number} {} {} {} {}\n", span.from, span.to, register(first), register(second))
        }
    }
}

/// The same on one line.
pub fn one_line(answer: &Answer) -> String {
    shown(answer).trim_end().replace('\n', "; ")
}
