//! What docs/RULES.md states by example, asked of the library: its tables of samples, the samples in its sentences, its spellings and its numbers.
use laqhoncu::{LISTING_FACTOR, Name, Operator, Refusal, SOURCE_MAX, TokenKind, refusals};

const RULES: &str = include_str!("../../../docs/RULES.md");

/// The rows of the tables that have this head.
fn rows(head: &str) -> Vec<Vec<&'static str>> {
    let cells = |line: &'static str| line.trim_matches('|').split(" | ").map(str::trim).collect::<Vec<_>>();
    let (mut rows, mut inside) = (Vec::new(), false);
    for line in RULES.lines() {
        if !line.starts_with('|') {
            inside = false;
        } else if !inside {
            inside = cells(line).join(" | ") == head;
        } else if !line.starts_with("|---") {
            rows.push(cells(line));
        }
    }
    assert!(!rows.is_empty(), "no table {head}");
    rows
}

/// The text below a title, to the next one.
fn section(title: &str) -> &'static str {
    let from = RULES.find(title).unwrap_or_else(|| panic!("no {title}")) + title.len();
    RULES[from..].split("\n#").next().unwrap()
}

/// A sample's bytes: between `` ` ``, with `\n` and `\x80` for what they stand for.
fn bytes(cell: &str) -> Vec<u8> {
    if cell == "(empty)" {
        return Vec::new();
    }
    let text = cell.strip_prefix('`').and_then(|text| text.strip_suffix('`')).unwrap_or_else(|| panic!("no sample: {cell}"));
    let mut parts = text.split("\\x80").map(|part| part.replace("\\n", "\n").into_bytes());
    let mut bytes = parts.next().unwrap();
    parts.for_each(|part| {
        bytes.push(0x80);
        bytes.extend(part);
    });
    bytes
}

/// A listing as it stands in a row.
fn records(listing: &[u8]) -> String {
    let lines: Vec<String> = laqhoncu::records(listing).map(|record| record.unwrap().to_string()).collect();
    if lines.is_empty() { "(no record)".into() } else { lines.join("; ") }
}

/// The bytes of a listing that stands in a row.
fn encoded(text: &str) -> Vec<u8> {
    let mut bytes = Vec::new();
    for record in text.split("; ").filter(|record| *record != "(empty)") {
        let (mark, fields) = record.split_at(2);
        let fields: Vec<u32> = fields.split_whitespace().map(|field| field.parse().unwrap()).collect();
        let (fields, data) = fields.split_at(if mark == "LD" { 3 } else { fields.len() });
        bytes.extend(mark.bytes());
        fields.iter().for_each(|field| bytes.extend(field.to_le_bytes()));
        bytes.extend(data.iter().map(|byte| *byte as u8));
    }
    bytes
}

fn refused(refusal: Refusal) -> String {
    let text = format!("{} at {}..{}", refusal.number, refusal.span.from, refusal.span.to);
    let number = |register: Option<laqhoncu::Register>| register.map_or(255, |register| register.number());
    match refusal.first {
        Some(_) => format!("{text}, registers {} and {}", number(refusal.first), number(refusal.second)),
        None => text,
    }
}

fn full_read(source: &[u8]) -> String {
    laqhoncu::listing(source).map_or_else(refused, |listing| records(&listing))
}

/// The sources and answers of the full read's tables.
fn samples() -> Vec<[&'static str; 2]> {
    let named = rows(" | source | answer").into_iter().map(|row| [row[1], row[2]]);
    let others = rows("source | answer").into_iter().map(|row| [row[0], row[1]]);
    named.chain(others).collect()
}

#[test]
fn full_reads() {
    for [source, answer] in samples() {
        assert_eq!(full_read(&bytes(source)), answer, "{source}");
    }
}

/// Lent more than enough, just enough, a byte too little and nothing, it answers and writes as the full read.
#[test]
fn lean_full_reads() {
    let sample = |[source, _]: [&str; 2]| bytes(source);
    let limits = [vec![b'\n'; SOURCE_MAX], vec![b'\n'; SOURCE_MAX + 1], b"in\n".repeat(SOURCE_MAX / 3)];
    for source in samples().into_iter().map(sample).chain(limits) {
        let length = laqhoncu::listing(&source).map_or(0, |listing| listing.len());
        for room in [length + 9, length, length.saturating_sub(1), 0] {
            let (mut full, mut lean) = (vec![0xA5; room], vec![0xA5; room]);
            let said = laqhoncu::full_read_lean(&source, &mut lean);
            assert_eq!(said, laqhoncu::full_read(&source, &mut full), "lent {room} bytes: {}", source.escape_ascii());
            assert!(lean == full, "lent {room} bytes: {}", source.escape_ascii());
            if length > 0 && room < length {
                assert_eq!(said, Err(Refusal::at(refusals::LISTING_NO_ROOM, 0, 0)), "{}", source.escape_ascii());
            }
        }
    }
}

/// `` `SOURCE` is NUMBER at FROM..TO ``
#[test]
fn samples_in_sentences() {
    let text = RULES.split_whitespace().collect::<Vec<_>>().join(" ");
    let mut seen = 0;
    for (end, _) in text.match_indices("` is ") {
        let answer = &text[end + 5..];
        let digits = |text: &str| text.find(|c: char| !c.is_ascii_digit()).unwrap_or(0);
        let Some((number, span)) = answer.split_once(" at ") else { continue };
        if number.is_empty() || digits(answer) != number.len() || digits(span) == 0 {
            continue;
        }
        let source = &text[text[..end].rfind('`').unwrap()..=end];
        let said = full_read(&bytes(source));
        assert!(answer.starts_with(&said), "{source}: {said}");
        seen += 1;
    }
    assert!(seen >= 12, "{seen} samples");
}

#[test]
fn tokens() {
    for row in rows("source | token") {
        let source = bytes(row[0]);
        let said = laqhoncu::token_read(&source, 0).map_or_else(refused, |token| {
            let kind = match token.kind {
                TokenKind::Number(value) => format!("number {value}"),
                TokenKind::Identifier => "name".into(),
                TokenKind::Text { closed } => if closed { "closed string" } else { "unclosed string" }.into(),
                TokenKind::Punctuation(_) => "punctuation".into(),
                TokenKind::Comment => "comment".into(),
                kind => format!("{kind:?}").split('(').next().unwrap().into(),
            };
            format!("{kind}, length {}", token.span.to)
        });
        assert_eq!(said, row[1], "{}", row[0]);
    }
}

#[test]
fn statement_reads() {
    for row in rows("source | place | answer") {
        let mut out = vec![0; 1000];
        let said = match laqhoncu::statement_read(&bytes(row[0]), row[1].parse().unwrap(), &mut out) {
            Ok(Some(read)) => format!("{}; ahead {}", records(&out[..read.length]), read.ahead),
            Ok(None) => "none left".into(),
            Err(refusal) => refused(refusal),
        };
        assert_eq!(said, row[2], "{}", row[0]);
    }
}

#[test]
fn patches() {
    for row in rows("old source | its listing | place | new text | answer") {
        let (old, listing, text) = (bytes(row[0]), encoded(row[1]), bytes(row[3]));
        // "whose buffers have 3 and 4 bytes"
        let (room_source, room) = match row[4] {
            "6 at 0..0" => (3, 3),
            "4 at 0..0" => (4, 4),
            _ => (SOURCE_MAX, LISTING_FACTOR * SOURCE_MAX),
        };
        let (mut source, mut out) = (vec![0; room_source], vec![0; room]);
        match laqhoncu::patch(&old, &listing, row[2].parse().unwrap(), &text, &mut source, &mut out) {
            Ok(patched) => {
                let (edited, answer) = row[4].rsplit_once(": ").unwrap();
                assert_eq!(&source[..patched.source], bytes(edited), "{}", row[0]);
                assert_eq!(records(&out[..patched.listing]), answer, "{}", row[0]);
            }
            Err(refusal) => assert_eq!(refused(refusal), row[4], "{}", row[0]),
        }
    }
}

#[test]
fn evaluations() {
    for row in rows("operator | left | right | answer") {
        // the package has no operator above 3
        let Some(operator) = Operator::of(row[0].parse().unwrap()) else { continue };
        let said = laqhoncu::evaluate(operator, row[1].parse().unwrap(), row[2].parse().unwrap());
        assert_eq!(said.map_or_else(refused, |value| value.to_string()), row[3]);
    }
}

/// Numbers and spellings, `` 0 `mov`, 1 `push` .. ``: each number with all spellings behind it.
fn numbered(title: &str) -> Vec<(u32, Vec<&'static str>)> {
    let text = section(title);
    let text = &text[text.find("0 `").unwrap_or_else(|| panic!("no list in {title}"))..];
    let text = text.split_once(".\n").map_or(text, |(list, _)| list);
    text.split(',')
        .map(|entry| {
            let (number, spellings) = entry.trim().split_once(' ').unwrap();
            (number.parse().unwrap(), spellings.split_whitespace().map(|word| word.trim_matches('`')).collect())
        })
        .collect()
}

#[test]
fn spellings() {
    let operations = numbered("### 3.6 Operations");
    assert_eq!(operations.len(), 99);
    for (number, spellings) in &operations {
        assert!(spellings.iter().all(|word| laqhoncu::operation(word.as_bytes()) == Some(*number as u8)), "{spellings:?}");
    }
    // the rows, in rising order
    let rows: Vec<(&str, u8)> = section("### 3.7 The table of operations")
        .lines()
        .filter_map(|line| line.strip_prefix("    "))
        .flat_map(|line| line.split(", "))
        .map(|row| row.split_once(' ').map(|(word, number)| (word, number.parse().unwrap())).unwrap())
        .collect();
    assert!(rows.windows(2).all(|two| two[0].0 < two[1].0));
    assert!(rows.iter().all(|(word, number)| laqhoncu::operation(word.as_bytes()) == Some(*number)));
    assert_eq!((rows.len(), operations.iter().map(|(_, spellings)| spellings.len()).sum::<usize>()), (117, 117));

    let registers = numbered("### 3.2 Registers");
    let segments = numbered("### 3.3 Segments");
    let directives = numbered("### 3.5 Directives");
    assert_eq!((registers.len(), segments.len(), directives.len()), (16, 4, 4));
    for (number, spellings) in registers {
        let Some(Name::Register(register)) = laqhoncu::name(spellings[0].as_bytes()) else { panic!("{spellings:?}") };
        assert_eq!(u32::from(register.number()), number);
    }
    for (number, spellings) in segments {
        let Some(Name::Segment(segment)) = laqhoncu::name(spellings[0].as_bytes()) else { panic!("{spellings:?}") };
        assert_eq!(u32::from(segment.number()), number);
    }
    for (number, spellings) in directives {
        assert_eq!(laqhoncu::directive(spellings[0].as_bytes()).map(|directive| u32::from(directive.number())), Some(number));
    }
}

/// The table of refusals has the package's, and 255, which the package cannot meet.
#[test]
fn numbers() {
    let numbers: Vec<u8> = rows("number | name | met when | span | calls").iter().map(|row| row[0].parse().unwrap()).collect();
    let all: Vec<u8> = refusals::ALL.iter().map(|row| row.1).chain([255]).collect();
    assert_eq!(numbers, all);
}
