//! Sources as lines of printable text, and back: the notation of the recorded answers and of what the program `replay` reads.

/// A source on one line: `\n`, `\r`, `\t` and `\\`, `\x80` for any other byte that is not printable, and for a blank at the end. Of a long
/// source that is one text again and again, that text, `\..` and the length of all.
pub fn escaped(source: &[u8]) -> String {
    let Some(unit) = unit(source) else { return spelled(source) };
    format!("{}\\..{}", spelled(unit), source.len())
}

fn spelled(source: &[u8]) -> String {
    let mut text = String::new();
    for (i, byte) in source.iter().enumerate() {
        match byte {
            b'\n' => text += "\\n",
            b'\r' => text += "\\r",
            b'\t' => text += "\\t",
            b'\\' => text += "\\\\",
            b' ' if i + 1 == source.len() => text += "\\x20",
            b' '..=b'~' => text.push(*byte as char),
            _ => text += &format!("\\x{byte:02x}"),
        }
    }
    text
}

/// The short text that a long source repeats.
fn unit(source: &[u8]) -> Option<&[u8]> {
    if source.len() < 1000 {
        return None;
    }
    (1..100).find(|length| source[*length..] == source[..source.len() - length]).map(|length| &source[..length])
}

/// The source that `escaped` wrote.
pub fn unescaped(text: &str) -> Vec<u8> {
    let (mut source, mut rest) = (Vec::new(), text.chars());
    while let Some(character) = rest.next() {
        source.push(match character {
            '\\' => match rest.next().unwrap() {
                'n' => b'\n',
                'r' => b'\r',
                't' => b'\t',
                'x' => {
                    let mut digit = || rest.next().unwrap().to_digit(16).unwrap() as u8;
                    digit() * 16 + digit()
                }
                '.' => {
                    let length = rest.as_str().strip_prefix('.').unwrap().parse().unwrap();
                    return source.iter().copied().cycle().take(length).collect();
                }
                other => u8::try_from(other).unwrap(),
            },
            other => u8::try_from(other).unwrap(),
        });
    }
    source
}
