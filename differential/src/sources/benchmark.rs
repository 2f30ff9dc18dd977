//! Sources for measuring speed, which are accepted: lines as they are in use, up to a length.
use super::Random;

/// A marker file of about this many bytes, never more: labels, `dw`, `equ` with expressions, comments.
pub fn marker_lines(length: usize) -> String {
    fill(length, |i, random, text| {
        let pick = random.below(1000);
        *text += &match i % 8 {
            0 => format!("; joint {} of section {}, checked twice\n", i, i / 40),
            1 => format!("weld_{i}:\n"),
            2 => format!("    dw {}, 0x{:x}, {}h ; depth and age\n", pick, pick * 7, pick % 10),
            3 => format!("limit{i} equ ({pick}+2)*3-{}/4\n", pick / 3),
            4 => format!("    dw {}, {}, {}\n", pick, pick + 1, pick * 3),
            5 => format!("span{i} equ limit{} - (weld_{} + {pick})\n", i - 2, i - 4),
            6 => format!("    db {}, 'crew {}', 0\n", pick % 256, pick % 9),
            _ => format!("mark{i}: dw 101b, 17o, {pick}\n"),
        }
    })
}

/// Code of about this many bytes, never more: instructions with brackets, `times`, strings.
pub fn code_lines(length: usize) -> String {
    fill(length, |i, random, text| {
        let pick = random.below(250);
        *text += &match i % 8 {
            0 => format!("next{i}: mov ax, [bx+si+{pick}]\n"),
            1 => format!("    add word [es:di+{pick}], 0x{pick:x}\n"),
            2 => format!("    times {} db 'x', {pick}\n", 1 + pick % 5),
            3 => "    rep movsb\n".to_string(),
            4 => format!("    cmp byte [bp-{pick}], 'q'\n"),
            5 => format!("    jne next{}\n", i - 5),
            6 => format!("    db 'part {pick}', 13, 10\n"),
            _ => format!("    call {pick}:{} ; far\n", pick * 3),
        }
    })
}

/// Data lines of about this many bytes, never more, whose numbers are hexadecimal.
pub fn number_lines(length: usize) -> String {
    fill(length, |_, random, text| {
        // A first digit that is no letter and a last one that is no suffix.
        let mut plain = || 0x1000 + random.below(0x4800) * 2;
        let (first, second) = (plain(), plain());
        *text += &format!("    dw {first:x}h, 0x{:X}, {second:X}h, 0x{:x}\n", random.below(65536), random.below(65536));
    })
}

fn fill(length: usize, line: impl Fn(usize, &mut Random, &mut String)) -> String {
    let (mut random, mut text, mut i) = (Random::new(4), String::new(), 0);
    loop {
        let whole = text.len();
        line(i, &mut random, &mut text);
        if text.len() > length {
            text.truncate(whole);
            return text;
        }
        i += 1;
    }
}
