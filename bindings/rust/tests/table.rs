//! The one table of refusals, and what the package says twice, against RULES 11.1 and against the header.
use laqhoncu::{LISTING_FACTOR, Refusal, Register, SOURCE_MAX, refusals};
use std::collections::BTreeSet;

const HEADER: &str = include_str!("../../../include/laqhoncu.h");

/// RULES 11.1, but for 255, which is no refusal of the reading.
const NUMBERS: [u8; 33] =
    [1, 2, 3, 4, 5, 6, 10, 11, 12, 13, 14, 15, 16, 17, 20, 21, 22, 23, 24, 25, 26, 30, 31, 32, 33, 34, 40, 41, 42, 43, 50, 51, 60];

/// The value that the header gives a macro.
fn defined(name: &str) -> &'static str {
    let wanted = format!("#define LAQHONCU_{name} ");
    HEADER.lines().find_map(|line| line.strip_prefix(wanted.as_str())).unwrap_or_else(|| panic!("no LAQHONCU_{name}")).trim()
}

#[test]
fn each_number_has_words() {
    assert_eq!(refusals::ALL.iter().map(|row| row.1).collect::<Vec<_>>(), NUMBERS);
    let words: BTreeSet<&str> = NUMBERS.iter().map(|&number| Refusal::at(number, 0, 1).words()).collect();
    assert_eq!(words.len(), NUMBERS.len());
    assert!(words.iter().all(|words| words.len() > 10 && words.is_ascii() && *words == words.trim()));
    assert!((0..=255).filter(|n| !NUMBERS.contains(n)).all(|n| Refusal::at(n, 0, 1).words() == "it is refused"));
}

#[test]
fn registers_are_said() {
    let refused = |source: &[u8]| laqhoncu::listing(source).unwrap_err();
    assert_eq!(refused(b"in [si+bx]").to_string(), "these registers make no address: si and bx");
    assert_eq!(refused(b"mov [ ax],bx").to_string(), "these registers make no address: ax");
    assert_eq!((refused(b"in [si+bx]").first, refused(b"in [si+bx]").second), (Some(Register::Si), Some(Register::Bx)));
    assert_eq!(refused(b"mov ax bx").to_string(), "a comma is expected");
}

#[test]
fn the_header_has_the_same_names() {
    let (_, rest) = HEADER.split_once("enum laqhoncu_refusal {").expect("the enum of refusals");
    let (body, _) = rest.split_once("};").unwrap();
    let constant = |line: &'static str| {
        let (name, rest) = line.trim().strip_prefix("LAQHONCU_")?.split_once(" = ")?;
        Some((name, rest.split(|c: char| !c.is_ascii_digit()).next()?.parse::<u8>().ok()?))
    };
    let declared: Vec<(&str, u8)> = body.lines().filter_map(constant).collect();
    let mut wanted = vec![("ACCEPTED", 0)];
    wanted.extend(refusals::ALL.iter().map(|row| (row.0, row.1)));
    wanted.push(("NO_SUCH_OPERATOR", 255));
    assert_eq!(declared, wanted);
}

#[test]
fn the_header_has_the_same_limits_and_version() {
    assert_eq!(defined("SOURCE_MAX"), SOURCE_MAX.to_string());
    assert_eq!(defined("LISTING_FACTOR"), LISTING_FACTOR.to_string());
    assert_eq!(defined("VERSION"), format!("\"{}\"", env!("CARGO_PKG_VERSION")));
    let parts = ["VERSION_MAJOR", "VERSION_MINOR", "VERSION_PATCH"].map(defined);
    assert_eq!(parts.join("."), env!("CARGO_PKG_VERSION"));
}
