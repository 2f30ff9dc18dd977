//! The patch: its refusals in their order, the edited source, and the listing with the records behind the new line moved.
use super::listing::{moved, well_formed};
use super::Rules;
use crate::answer;
use crate::patch_call::{Call, Patched};
use laqhoncu::Refusal;

impl Rules {
    /// What the patch answers, lent so many bytes for the source and for the listing.
    /// The patch; the order of its tests is that of RULES 11.2.
    pub fn patch(&self, call: &Call, source_room: usize, listing_room: usize) -> Patched {
        let Call { source, listing, place, text } = *call;
        let refused = |number| Err(Refusal::at(number, 0, 0));
        // Where no line begins: RULES 1.3.
        if place > source.len() || (place > 0 && source[place - 1] != b'\n') {
            return refused(42);
        }
        if text.contains(&b'\n') {
            return refused(43);
        }
        let edited = edited(call);
        if source.len() > 65536 || edited.len() > 65536 {
            return refused(1);
        }
        if let Some(at) = edited.iter().position(|byte| *byte > 127) {
            return Err(Refusal::at(2, at, at + 1));
        }
        if !well_formed(listing, source.len()) {
            return refused(41);
        }
        if open_beside(self, call) {
            return refused(40);
        }
        // No more than the new line is read, in its place in the edited source: RULES 10.4.
        let end = place + text.len();
        let line = &edited[place..edited.len().min(end + 1)];
        let new = self.full_read(line).map_err(|refusal| answer::moved(refusal, place))?;
        // What stands above the line stays, the line's own goes, what stands behind it is moved: RULES 10.5.
        let mut patched = Vec::new();
        let old_end = line_end(source, place);
        moved(listing, |at| at < place, 0, &mut patched);
        moved(&new, |_| true, place as i64, &mut patched);
        moved(listing, |at| at >= old_end, end as i64 - old_end as i64, &mut patched);
        if edited.len() > source_room {
            return refused(6);
        }
        if patched.len() > listing_room {
            return refused(4);
        }
        Ok((edited, patched))
    }
}

/// Where the line that begins at a place ends: RULES 1.3.
pub fn line_end(source: &[u8], place: usize) -> usize {
    place + source[place..].iter().take_while(|byte| **byte != b'\n').count()
}

/// The edited source (RULES 10.1), of a call whose place is one of its source
pub fn edited(call: &Call) -> Vec<u8> {
    let Call { source, place, text, .. } = *call;
    [&source[..place], text, &source[line_end(source, place)..]].concat()
}

/// Whether one of the lines that count leaves a `times` open: the replaced one, the new one, or the nearest above that is not bare. RULES
/// 10.3.
pub fn open_beside(rules: &Rules, call: &Call) -> bool {
    let Call { source, place, text, .. } = *call;
    let bare = |line: &[u8]| line.iter().find(|byte| !b" \t\r".contains(byte)).is_none_or(|byte| *byte == b';');
    let above = source[..place].split(|byte| *byte == b'\n').rev().skip(1).find(|line| !bare(line));
    // The full read of the line alone gives 34; 1 and 2 are tested there too. RULES 10.3.
    let open = |line: &[u8]| rules.full_read(line).is_err_and(|refusal| refusal.number == 34);
    open(&source[place..line_end(source, place)]) || open(text) || above.is_some_and(open)
}
