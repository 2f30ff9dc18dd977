//! The listing: records of a mark and fields, RULES 8.

/// Writes a mark and fields.
pub fn put(out: &mut Vec<u8>, mark: &[u8], fields: &[u32]) {
    out.extend_from_slice(mark);
    fields.iter().for_each(|field| out.extend_from_slice(&field.to_le_bytes()));
}

/// How many fields follow a mark.
fn fields_of(mark: &[u8]) -> Option<usize> {
    Some(match mark {
        b"ST" => 1,
        b"VL" | b"VI" | b"VS" | b"OI" | b"OF" | b"LL" | b"LC" | b"LT" => 2,
        b"VC" | b"PF" | b"IN" | b"OR" | b"OS" | b"LD" => 3,
        b"OD" => 4,
        b"OX" | b"LI" => 6,
        _ => return None,
    })
}

/// A record where it lies in a listing: its mark, its fields, and behind them the bytes of data.
struct Record<'a> {
    bytes: &'a [u8],
    fields: usize,
}

impl<'a> Record<'a> {
    /// The first record of some bytes, unless they begin with none.
    fn first(bytes: &'a [u8]) -> Option<Self> {
        let fields = fields_of(bytes.get(..2)?)?;
        let length = 2 + 4 * fields;
        let record = Self { bytes: bytes.get(..length)?, fields };
        let data = if record.mark() == b"LD" { record.field(2) as usize } else { 0 };
        Some(Self { bytes: bytes.get(..length + data)?, fields })
    }

    fn mark(&self) -> &'a [u8] {
        &self.bytes[..2]
    }

    fn field(&self, i: usize) -> u32 {
        u32::from_le_bytes(self.bytes[2 + 4 * i..6 + 4 * i].try_into().unwrap())
    }

    /// Writes the record with its places moved: RULES 10.5.
    fn moved(&self, by: i64, out: &mut Vec<u8>) {
        let places: &[usize] = match self.mark() {
            b"ST" => &[0],
            b"LT" => &[],
            b"LI" => &[0, 1, 4, 5],
            _ => &[0, 1],
        };
        put(out, self.mark(), &[]);
        for i in 0..self.fields {
            let field = self.field(i);
            put(out, b"", &[if places.contains(&i) { (field as i64 + by) as u32 } else { field }]);
        }
        out.extend_from_slice(&self.bytes[2 + 4 * self.fields..]);
    }
}

/// The records of a listing in turn; None for the bytes that begin none, and no more behind them.
fn records(listing: &[u8]) -> impl Iterator<Item = Option<Record<'_>>> {
    let mut rest = listing;
    std::iter::from_fn(move || {
        if rest.is_empty() {
            return None;
        }
        let record = Record::first(rest);
        rest = record.as_ref().map_or(&[], |record| &rest[record.bytes.len()..]);
        Some(record)
    })
}

/// The bytes of each record of a listing that is one.
pub fn split(listing: &[u8]) -> Vec<&[u8]> {
    records(listing).map(|record| record.unwrap().bytes).collect()
}

/// Whether bytes are a well-formed listing of a source of that length: RULES 8.5.
pub fn well_formed(listing: &[u8], length: usize) -> bool {
    // the place of the statement, and what waits to be taken up: E expressions, O operands, L a line
    let (mut place, mut waiting) = (None, Vec::new());
    for record in records(listing) {
        let Some(record) = record else { return false };
        let field = |i: usize| record.field(i);
        if record.mark() == b"ST" {
            let ended = place.is_none() || waiting == [b'L'];
            if !ended || place.is_some_and(|last| last >= field(0)) {
                return false;
            }
            place = Some(field(0));
            waiting.clear();
            continue;
        }
        let Some(place) = place else { return false };
        let span = |i: usize| place <= field(i) && field(i) <= field(i + 1) && field(i + 1) as usize <= length;
        // what is taken up, in the order it was put; what is put for it; whether the fields are in range
        let (taken, put, good): (&[u8], u8, bool) = match record.mark() {
            b"VC" | b"VL" | b"VI" | b"VS" => (b"", b'E', span(0)),
            b"PF" => (b"E", b'E', span(0) && field(2) <= 1),
            b"IN" => (b"EE", b'E', span(0) && field(2) <= 3),
            b"OR" => (b"", b'O', span(0) && field(2) <= 15),
            b"OS" => (b"", b'O', span(0) && field(2) <= 3),
            b"OI" => (b"E", b'O', span(0)),
            b"OF" => (b"EE", b'O', span(0)),
            b"OD" => (b"E", b'O', span(0) && field(2) <= 2 && field(3) <= 4),
            b"OX" => {
                let taken = &b"E"[..field(3).min(1) as usize];
                (taken, b'O', span(0) && field(2) <= 7 && field(3) <= 1 && field(4) <= 2 && field(5) <= 4)
            }
            b"LL" => (b"", b'L', span(0)),
            b"LI" => {
                let taken = &b"OO"[..field(3).min(2) as usize];
                (taken, b'L', span(0) && field(2) <= 98 && field(3) <= 2 && span(4))
            }
            b"LD" => (b"", b'L', span(0) && field(2) >= 1),
            b"LC" => (b"E", b'L', span(0)),
            b"LT" => (b"EL", b'L', field(0) == 0 && field(1) == 0),
            _ => return false,
        };
        if !good || !waiting.ends_with(taken) {
            return false;
        }
        waiting.truncate(waiting.len() - taken.len());
        waiting.push(put);
    }
    place.is_none() || waiting == [b'L']
}

/// The records of a well-formed listing whose statements' places are `of` some kind, moved.
pub fn moved(listing: &[u8], of: impl Fn(usize) -> bool, by: i64, out: &mut Vec<u8>) {
    let mut wanted = false;
    for record in records(listing).flatten() {
        if record.mark() == b"ST" {
            wanted = of(record.field(0) as usize);
        }
        if wanted {
            record.moved(by, out);
        }
    }
}
