//! marker edit FILE LINE TEXT
use crate::outcome::{Status, Stop, announce, named, print, warn};
use crate::{files, report};
use laqhoncu::{LISTING_FACTOR, Refusal, SOURCE_MAX, listing, patch, refusals};
use std::borrow::Cow;
use std::ffi::OsStr;
use std::path::Path;

pub fn edit(name: &OsStr, line: usize, text: &[u8], force: bool) -> Result<Status, Stop> {
    let said = named(name);
    if name == "-" {
        print(edited(&said, &files::standard_input()?, line, text)?)?;
        return Ok(Status::Done);
    }
    let path = Path::new(name);
    let held = files::hold(path)?;
    let source = edited(&said, &held.source, line, text)?;
    let lost = held.replace(path, &source, force)?;
    announce(&format!("{said}: line {line} replaced"));
    if let Some(lost) = lost {
        warn(&format!("{said}: not kept: {lost}"));
    }
    Ok(Status::Done)
}

/// A source that is read, and its listing: the old one, or, where that is refused, the old one with a label for the line that begins at a
/// place. That line goes, so the edited source is the same; and a label may stand wherever a line may, as the content of a `times` too.
fn readable<'a>(name: &str, old: &'a [u8], place: Option<usize>) -> Result<(Cow<'a, [u8]>, Vec<u8>), Stop> {
    let first = match listing(old) {
        Ok(listing) => return Ok((old.into(), listing)),
        Err(refused) => refused,
    };
    let mut without = old.to_vec();
    if let Some(place) = place {
        let line = &mut without[place..place + report::line_at(old, place).len()];
        line.fill(b' ');
        line.iter_mut().take(1).for_each(|byte| *byte = b'a');
    }
    match listing(&without) {
        Ok(listing) => Ok((without.into(), listing)),
        Err(refused) => {
            let said = report::refusal(name, &without, 1, &refused);
            // The first fault stays, and its line can be exchanged first; or another one shows behind it, and no one line is the only fault.
            let mended = if said == report::refusal(name, old, 1, &first) {
                "itself is refused, and is to be mended first"
            } else {
                "is refused there too, and is to be mended in an editor"
            };
            Err(Stop::refused(format!("{said}{name}: not edited: the file {mended}")))
        }
    }
}

/// A source with one line exchanged for a text, by the patch.
fn edited(name: &str, old: &[u8], line: usize, text: &[u8]) -> Result<Vec<u8>, Stop> {
    let place = report::line_start(old, line);
    let (readable, listing) = readable(name, old, place)?;
    let Some(place) = place else {
        let count = report::count_lines(old);
        let lines = if count == 1 { "1 line".to_string() } else { format!("{count} lines") };
        return Err(Stop::refused(format!("{name}: not edited: there is no such line: the file has {lines}")));
    };
    // The CR in front of a line feed belongs to the line's end in a person's eyes, and to the line in the rules.
    let replaced = report::line_at(old, place);
    let mut new = text.to_vec();
    if replaced.ends_with(b"\r") && !new.ends_with(b"\r") {
        new.push(b'\r');
    }
    let (mut source, mut out) = (vec![0; SOURCE_MAX], vec![0; LISTING_FACTOR * SOURCE_MAX]);
    match patch(&readable, &listing, place, &new, &mut source, &mut out) {
        Ok(patched) => {
            source.truncate(patched.source);
            Ok(source)
        }
        Err(refused) if refused.number == refusals::TIMES_LEFT_OPEN => Err(left_open(name, &readable, place, line, &new, &refused)),
        Err(mut refused) => {
            // The patch's span is in the edited source; only the new line is read there.
            if refused.place().is_some() {
                refused.span.from -= place;
                refused.span.to = refused.span.to.saturating_sub(place);
            }
            Err(Stop::refused(format!("{}{name}: not edited", report::refusal(name, &new, line, &refused))))
        }
    }
}

/// Which line leaves a `times` without its content: alone it is refused with 34, at the `times`.
fn left_open(name: &str, old: &[u8], place: usize, line: usize, new: &[u8], refused: &Refusal) -> Stop {
    let open = |line: &[u8]| listing(line).err().filter(|refused| refused.number == refusals::TIMES_WITHOUT_CONTENT);
    let above = old[..place].split(|byte| *byte == b'\n').enumerate().map(|(above, text)| (above + 1, text, "the line above"));
    let lines = [(line, new, "the new text"), (line, report::line_at(old, place), "the old line")].into_iter();
    // Of the lines above only the nearest that holds a statement counts, so an open one is the last.
    let found =
        lines.chain(above.collect::<Vec<_>>().into_iter().rev()).find_map(|(number, text, which)| Some((number, text, which, open(text)?)));
    let said = match found {
        Some((number, text, which, refused)) => {
            report::at(name, text, number, refused.span, &format!("{which} leaves `times` without its content"))
        }
        None => format!("{name}: {refused}\n"),
    };
    Stop::refused(format!("{said}{name}: not edited: such lines are changed together, in an editor"))
}
