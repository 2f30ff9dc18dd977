//! Compares the patch with the model's, and with the full read of the edited source.
use super::full_reads::FullRead;
use super::Met;
#[cfg(original)]
use crate::beside::Asked;
use crate::lent::filled;
use crate::model::{edited, open_beside, split, Rules};
use crate::patch_call::{called, shown, Call, Patch};
use crate::sources::patches::{calls, line_starts, read};
use crate::sources::{self, Random};
use laqhoncu::Refusal;

/// What was compared.
#[derive(Clone, Copy, Debug, Default)]
pub struct Count {
    pub calls: u64,
    pub accepted: u64,
    /// calls with a byte above 127 in the old source or in the text
    pub foreign: u64,
    /// of these, the calls whose edited source has none: only the replaced line has it
    pub replaced_foreign: u64,
    /// calls whose old or edited source is above 65,536 bytes
    pub too_long: u64,
    /// calls whose listing is the base rules', of a source that is refused with 60 now
    pub old_listings: u64,
    /// calls with a letter behind a run in the old source or in the text, which RULES 14.2 reads otherwise
    pub lettered: u64,
    /// of these, the calls whose listing is that rule's, of a source that has another one now or none
    pub suffix_listings: u64,
    /// how often each refusal was expected
    pub met: Met,
    #[cfg(original)]
    pub asked: Asked,
}

impl Count {
    fn add(&mut self, call: &Call, calls: u64) {
        self.calls += calls;
        if call.place > call.source.len() {
            return;
        }
        let edited = edited(call);
        let foreign = !call.source.is_ascii() || !call.text.is_ascii();
        self.foreign += if foreign { calls } else { 0 };
        self.replaced_foreign += if foreign && edited.is_ascii() { calls } else { 0 };
        self.too_long += if call.source.len().max(edited.len()) > 65536 { calls } else { 0 };
        let now = Rules::NOW.full_read(call.source);
        let old = now.is_err_and(|refusal| refusal.number == 60) && read(call.source).is_ok_and(|listing| listing == call.listing);
        self.old_listings += if old { calls } else { 0 };
        let (now, suffix) = (|source| Rules::NOW.full_read(source), |source| Rules::NOW.suffix_first().full_read(source));
        let [in_source, in_text] = [call.source, call.text].map(|source| now(source) != suffix(source));
        self.lettered += if in_source || in_text { calls } else { 0 };
        let old = in_source && suffix(call.source).is_ok_and(|listing| listing == call.listing);
        self.suffix_listings += if old { calls } else { 0 };
        #[cfg(original)]
        [call.source, call.text, &edited].into_iter().for_each(|source| self.asked.full_read(source));
    }
}

/// Compares a patch with the expected one: with room enough, with just enough, with a byte too little for the source, the listing
/// or both. Panics where they differ.
pub fn compare(rules: Rules, count: u64, mut ours: impl Patch) -> Count {
    let mut compared = Count::default();
    calls(count, &mut |call| {
        let rooms = match rules.patch(call, usize::MAX, usize::MAX) {
            Ok((source, listing)) => {
                compared.accepted += 1;
                let (s, l) = (source.len(), listing.len());
                vec![(s + 9, l + 9), (s, l), (s.saturating_sub(1), l), (s, l.saturating_sub(1)), (s.saturating_sub(1), l.saturating_sub(1))]
            }
            Err(refusal) => {
                compared.met.add(&refusal);
                vec![(65536, 65536), (0, 0)]
            }
        };
        compared.add(call, rooms.len() as u64);
        for (source_room, listing_room) in rooms {
            let expected = rules.patch(call, source_room, listing_room);
            let said = called(&mut ours, call, source_room, listing_room);
            assert!(said == expected, "{}\nlent {source_room} and {listing_room} bytes\nexpected {expected:?}\nsaid {said:?}", shown(call));
        }
    });
    compared
}

/// New lines beside the random ones: a `times` that is left open, whole lines, refused ones, dots in names, letters behind a run.
#[rustfmt::skip]
const TEXTS: [&str; 15] = [
    "times 2", "times 2 nop", "\t; bare", "k equ *5", "dw 12b", "db 'open", "rep", "w dw 65536", "db 256,2b", "w12.a equ 5", "times a.b",
    "dw 0abh,10bh", "times 10bh", "times 1bhlt", "k equ 1bo",
];

/// Demand 3, with no model between: on accepted sources, each of their lines and random texts, some with a byte above 127 or as long as a
/// source may be, the patch answers as the full read of the edited source does, lent as many bytes for the listing; or it is refused with
/// 40, and then a line of the proviso leaves a `times` open. Gives the calls, how many of them were accepted, refused as the full read, and
/// refused with 40.
pub fn as_full_read(rules: Rules, count: u64, mut ours: impl Patch, mut full_read: impl FullRead) -> [u64; 4] {
    let (mut random, mut met) = (Random::new(7), [0; 4]);
    while met[0] < count {
        let mut source = Vec::new();
        for _ in 0..1 + random.below(4) {
            source.extend(sources::grammar(&mut random));
            if random.once_in(3) {
                source.extend_from_slice(random.of(&["\n", " ; a comment\n", "\n\t\n", "times 2\n", "times 3 ; two\n\n"]).as_bytes());
            }
        }
        let mut room = vec![0; 18 * source.len()];
        let Ok(length) = full_read(&source, &mut room) else { continue };
        for place in line_starts(&source) {
            let text = match random.below(6) {
                0 => Vec::new(),
                1 => sources::changed(&mut random, &source),
                2 => random.of(&TEXTS).as_bytes().to_vec(),
                _ => sources::grammar(&mut random),
            };
            let mut text = text.split(|b| *b == b'\n').next().unwrap().to_vec();
            if random.once_in(32) {
                // bare, or in a comment
                text.extend_from_slice(&[b';', 128 | random.bits() as u8][random.below(2)..]);
            } else if random.once_in(1024) {
                text.resize(65536 - source.len() + random.below(2 * source.len() + 1), b' ');
            }
            let call = Call { source: &source, listing: &room[..length], place, text: &text };
            let edited = edited(&call);
            let mut enough = vec![0; 18 * edited.len()];
            let most = full_read(&edited, &mut enough).unwrap_or(0);
            let lent = match random.below(4) {
                0 => most,
                1 => most.saturating_sub(1),
                _ => most + random.below(9),
            };
            let mut out = filled(lent);
            let expected = full_read(&edited, &mut out).map(|n| (edited.clone(), out[..n].to_vec()));
            let said = called(&mut ours, &call, edited.len() + random.below(2), lent);
            met[0] += 1;
            if said == Err(Refusal::at(40, 0, 0)) {
                assert!(open_beside(&rules, &call), "{}\nrefused with 40, and no line leaves a `times` open", shown(&call));
                met[3] += 1;
                continue;
            }
            assert!(said == expected, "{}\nlent {lent} bytes\nfull read {expected:?}\npatch {said:?}", shown(&call));
            met[if said.is_ok() { 1 } else { 2 }] += 1;
        }
    }
    met
}

/// Listings damaged in every place: each byte changed, each prefix, each record left out, doubled or exchanged with the next. The patch
/// refuses with 41 just those that aren't well-formed; the others it treats by its rule. Gives the calls and how many were refused so.
pub fn damaged(rules: Rules, mut ours: impl Patch) -> (u64, u64) {
    let (mut compared, mut refused) = (0, 0);
    let source = b"k equ -1+2*3\nstart: mov ax,[bx+4]\nes: jmp 1:2\n times 2 times $$-$ db 'ab',3\nmov byte [ds:k],al\nw dw 1, 2\nrep\n";
    let pieces = [
        "k equ -1+2*3\n",
        "mov ax,[bx+4]\n",
        "jmp 1:2\n",
        "times 2 times $$-$ db 'ab',3\n",
        "mov word [ds:k],bx\n",
        "w dw 1, 2\n",
        "rep\n",
        "in al,dx\nmov es,ax\n",
    ];
    let mut list = vec![pieces.concat().into_bytes(), source.to_vec()];
    list.extend(pieces.iter().map(|piece| piece.as_bytes().to_vec()));
    for source in list {
        let listing = read(&source).unwrap();
        let starts = line_starts(&source);
        let mut tried = |listing: &[u8]| {
            for place in [starts[starts.len() / 2], starts[0]] {
                let call = Call { source: &source, listing, place, text: b"nop" };
                let expected = rules.patch(&call, 65536, 65536);
                let said = called(&mut ours, &call, 65536, 65536);
                assert!(said == expected, "{}\nexpected {expected:?}\nsaid {said:?}", shown(&call));
                compared += 1;
                refused += (said == Err(Refusal::at(41, 0, 0))) as u64;
            }
        };
        tried(&listing);
        for at in 0..listing.len() {
            tried(&listing[..at]);
            for step in [1, 2, 16, 127, 128, 255] {
                let mut other = listing.clone();
                other[at] = other[at].wrapping_add(step);
                tried(&other);
            }
        }
        let list = split(&listing);
        for at in 0..list.len() {
            let other = [&list[..at], &list[at + 1..]].concat();
            tried(&other.concat());
            let other = [&list[..=at], &list[at..]].concat();
            tried(&other.concat());
            for with in at + 1..list.len() {
                let mut other = list.clone();
                other.swap(at, with);
                tried(&other.concat());
            }
        }
    }
    (compared, refused)
}

/// The order of the refusals: a call with each set of causes at once is refused by the first of them. Gives the calls.
pub fn order(rules: Rules, mut ours: impl Patch) -> u64 {
    let wide = rules.counts_fit.then_some((60, "b db 256"));
    [(23, "b db ,,")].into_iter().chain(wide).map(|(reading, text)| order_with(reading, text, &mut ours)).sum()
}

/// The same with one refusal of the reading, which a text has.
fn order_with(reading: u8, refused: &str, ours: &mut impl Patch) -> u64 {
    let order = [42, 43, 1, 2, 41, 40, reading, 6, 4];
    let mut compared = 0;
    for causes in 0..1 << order.len() {
        let has = |number: u8| causes >> order.iter().position(|n| *n == number).unwrap() & 1 == 1;
        // Three ways to leave a `times` open.
        for open in ["replaced", "new", "above"] {
            let way = |name| has(40) && open == name;
            let above = if way("above") { "a db 1\ntimes 2\n ; bare\n\n" } else { "a db 1\n" };
            // The full read refuses the second with 2 and not with 34; its byte above 127 is not in the edited source.
            let replaced: &[u8] = if way("replaced") { b"times 2" } else { b"times 2;\xc8" };
            let source = [above.as_bytes(), replaced, b"\nc db 3\n"].concat();
            let mut text = if has(reading) { refused.as_bytes().to_vec() } else { b"b db 4".to_vec() };
            if way("new") {
                // 34 comes first where both are in the new line
                text = if has(reading) { continue } else { b"b times 2".to_vec() };
            }
            if has(43) {
                text.extend_from_slice(b"\nnop");
            }
            if has(2) {
                text.extend_from_slice(b" ;\xc8");
            }
            if has(1) {
                text.resize(65530, b' ');
            }
            let mut listing = read(b"a db 1\n").unwrap();
            if has(41) {
                listing.pop();
            }
            let place = above.len() + has(42) as usize;
            let end = above.len() + replaced.len();
            let edited = above.len() + text.len() + source.len() - end;
            // a label and its data, above and in the new line
            let written = 2 * (6 + 10 + 6 + 15);
            let call = Call { source: &source, listing: &listing, place, text: &text };
            let said = called(ours, &call, edited - has(6) as usize, written - has(4) as usize);
            let first = order.into_iter().find(|number| has(*number));
            let number = said.as_ref().err().map(|refusal| refusal.number);
            assert!(number == first, "{}\ncauses {causes:b}: expected {first:?}, said {said:?}", shown(&call));
            compared += 1;
        }
    }
    compared
}
