//! show FILE LINE TEXT: prints the listing of a marker file, exchanges a line of it for a text, and prints the line as it then stands.
//! Nothing is written to the file.
use laqhoncu::{LISTING_FACTOR, SOURCE_MAX, listing, patch, records};
use std::error::Error;

fn main() -> Result<(), Box<dyn Error>> {
    let mut words = std::env::args().skip(1);
    let (Some(file), Some(line), Some(text)) = (words.next(), words.next(), words.next()) else {
        return Err("usage: show FILE LINE TEXT".into());
    };
    let source = std::fs::read(file)?;
    let old = listing(&source)?;
    let mut count = 0;
    for record in records(&old) {
        println!("{}", record?);
        count += 1;
    }
    println!("END {count}");

    // A line begins at 0 and behind each line feed.
    let above = line.parse::<usize>()?.checked_sub(1).ok_or("LINE counts from 1")?;
    let begins = |place: &usize| *place == 0 || source[place - 1] == b'\n';
    let place = (0..=source.len()).filter(begins).nth(above).ok_or("there is no such line")?;
    let (mut edited, mut out) = (vec![0; SOURCE_MAX], vec![0; LISTING_FACTOR * SOURCE_MAX]);
    let patched = patch(&source, &old, place, text.as_bytes(), &mut edited, &mut out)?;
    let line = edited[place..patched.source].split(|byte| *byte == b'\n').next().unwrap_or_default();
    println!("{}", String::from_utf8_lossy(line));
    Ok(())
}
