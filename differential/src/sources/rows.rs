//! Every short row of what the base rules have otherwise (RULES 14): numbers on data lines, dots in names and elsewhere, letters behind
//! runs of digits.
use super::causes::opened;
use super::{each, each_behind, DOT_BYTES, LETTER_BYTES};

/// Every short row behind the words of a data line, labels and `times` before them, and behind words that are none: numbers that fit and
/// that don't, and each other refusal that a data line can meet.
pub fn data_rows(most: usize, f: &mut impl FnMut(&[u8])) {
    #[rustfmt::skip]
    let heads = [
        "db", "DW", "a: Dw", "a db", "times 2 dB", "Times 1+1\n\ntimes 'c' dw", "times 'ab' db", "times 'c db", "times 256 dw 1\n db",
        "in db", "equ db",
    ];
    #[rustfmt::skip]
    let pieces: [&[u8]; 19] = [
        b" 255", b",256", b" 256", b",65535", b" 65536", b" 0x100", b",10000h", b" 12b", b",0x80000000", b" 2147483648", b",a", b" 'x'",
        b",''", b" 'x", b",", b"-", b"\n", b" ;256", b" db",
    ];
    each_behind(&heads, &pieces, most, f);
}

/// Numbers at the edges of `db` and `dw`, in each way to write a number, with a refused number or nothing behind.
pub fn data_numbers(f: &mut impl FnMut(&[u8])) {
    for value in [0u32, 1, 254, 255, 256, 257, 511, 65534, 65535, 65536, 65537, 70000, 2147483646, 2147483647, 2147483648] {
        for zeros in ["", "0", "000"] {
            let mut spelled = vec![format!("{zeros}{value}")];
            let [binary, octal, decimal] = [format!("{zeros}{value:b}"), format!("{zeros}{value:o}"), format!("{zeros}{value}")];
            let (lower, upper) = (format!("{zeros}{value:x}"), format!("{zeros}{value:X}"));
            spelled.extend([
                format!("0b{binary}"),
                format!("0o{octal}"),
                format!("0d{decimal}"),
                format!("0x{lower}"),
                format!("0x{upper}"),
            ]);
            spelled.extend([format!("{binary}b"), format!("{octal}o"), format!("{decimal}d"), format!("{lower}h"), format!("0{upper}h")]);
            spelled.extend([format!("{binary}B"), format!("{octal}O"), format!("{decimal}D"), format!("0{lower}H"), format!("{upper}H")]);
            for number in spelled {
                for word in ["db", "DB", "dw", "Dw"] {
                    for (head, tail) in [("", ""), ("a: ", ",1"), ("times 2 ", " 12b"), ("times 2\ntimes 3 ", "\n0x80000000")] {
                        f(format!("{head}{word} {number}{tail}").as_bytes());
                    }
                }
            }
        }
    }
}

/// Every row of up to three lines, some with a wide number, some with another refusal.
pub fn data_lines(f: &mut impl FnMut(&[u8])) {
    let deep = format!("equ {}1\n", "-".repeat(32));
    #[rustfmt::skip]
    let lines: [&[u8]; 21] = [
        b"db 256\n", b"dw 65536\n", b"db 1\n", b"a: dw 70000\n", b"times 2 db 256\n", b"times 'ab' db 256\n", b"equ 'ab'\n", b"equ 'c\n",
        b"db\n", b"DW ,''\n", b"db 'x\n", b"db a\n", b"dw 12b\n", b"dw 0x80000000\n", b"equ 70000\n", b"times 2\n", b"db 1,256 ;c\n",
        b"in db,256\n", b"\n", b"db 2147483648\n", deep.as_bytes(),
    ];
    each(&lines, 3, f);
}

/// Every short row behind names and what is none: a dot directly behind a name, a number, `$`, a quote, a bracket or a blank, a name's last
/// dot, two dots, and what may follow a name.
pub fn dotted_rows(most: usize, f: &mut impl FnMut(&[u8])) {
    each(&DOT_BYTES, most + 1, f);
    #[rustfmt::skip]
    let heads = [
        "", "a", "mov", "in ax", "in word", "in es", "in [bx", "in [si+di", "in [es", "equ a", "equ -", "k equ", "times", "times a", "times 2 a",
        "times 0b", "times 1bh", "times 1x", "db 1", "jmp a:b",
    ];
    #[rustfmt::skip]
    let pieces: [&[u8]; 15] = [
        b".", b"a", b"1", b"0b", b"2b", b" ", b"\n", b":", b",", b"]", b"+1", b"$", b"'c'", b" equ 5", b" db 256",
    ];
    each_behind(&heads, &pieces, most, f);
    // at the limits: a dot in the name at which depth 33 would begin, in the 17th `times`, and behind both
    for count in [30, 31, 32, 33] {
        for opener in ["(", "-", "1+-", "a.b*("] {
            for head in ["equ ", "in [1+", "times ", "a.b equ "] {
                for name in ["a.b", "a.", "a .b", "1.a"] {
                    let row = opened(opener, count);
                    f(format!("{head}{row}{name}").as_bytes());
                    f(format!("{head}{row}{name}{}\nc.d", ")".repeat(row.matches('(').count())).as_bytes());
                }
            }
        }
    }
    for count in [15, 16, 17] {
        for unit in ["times 1 ", "times a.b\n", "times a. "] {
            for tail in ["times.x", "times.x 1", "times 1 times.x", "times. 1 a", "times a.b", "times 1.a", "times 1 .a", "times 1 a\nc.d"]
            {
                f((unit.repeat(count) + tail).as_bytes());
            }
        }
    }
}

/// Every row of up to three lines, some with a dot in a name, some with another refusal, before and behind it.
pub fn dotted_lines(f: &mut impl FnMut(&[u8])) {
    let deep = format!("equ {}a.b\n", "-".repeat(32));
    #[rustfmt::skip]
    let lines: [&[u8]; 20] = [
        b"a.b equ 5\n", b"w12.a:\n", b"times a.b\n", b"times 2 a.\n", b"times 2\n", b"in ax.b,[a..b]\n", b"mov.x\n", b"; a.b\n", b"db 'a.b'\n",
        b".a\n", b"db 1.a\n", b"db 256\n", b"equ *5\n", b"equ /a.b\n", b"in [es:]a.b\n", b"in [si+di]\n", b"in [ax.b\n", b"12b\n", b"a\n",
        deep.as_bytes(),
    ];
    each(&lines, 3, f);
}

/// Every short row of the bytes of numbers, by itself and behind what a number may follow.
pub fn lettered_rows(most: usize, f: &mut impl FnMut(&[u8])) {
    each_behind(&["times ", "dw "], &LETTER_BYTES, most + 1, f);
    let heads = ["", "equ ", "equ -", "db 1,", "in ", "mov ax,", "jmp 1:", "in [", "in [bx+", "times 2 ", "a:", "times 1\ntimes "];
    each_behind(&heads, &LETTER_BYTES, most, f);
    // at the limits: depth 33 would begin at such a run, a 17th `times` has one before it or behind
    for count in [30, 31, 32, 33] {
        for opener in ["(", "-", "1+-", "1bh*("] {
            for head in ["equ ", "in [1+", "times ", "times 1bh equ "] {
                for number in ["1bh", "0abh", "0adh", "1bo", "0ado", "12b", "0dh", "99999999999dh"] {
                    let row = opened(opener, count);
                    f(format!("{head}{row}{number}").as_bytes());
                    f(format!("{head}{row}{number}{}\nequ 1bh", ")".repeat(row.matches('(').count())).as_bytes());
                }
            }
        }
    }
    for count in [15, 16, 17] {
        for unit in ["times 1 ", "times 1bh\n", "times 0abH ", "times 1bhtimes 1 "] {
            for tail in ["times 1bh", "times 1bh a", "times 1bhtimes 2 a", "times 0abh a", "times 1bo", "1bh", "0abh", "a\nequ 1bh"] {
                f((unit.repeat(count) + tail).as_bytes());
            }
        }
    }
}

/// Every row of up to three lines, some with a letter behind a run, some with another refusal, before and behind it; and every short row of
/// such pieces on a data line.
pub fn lettered_lines(f: &mut impl FnMut(&[u8])) {
    let deep = format!("equ {}1bh\n", "-".repeat(32));
    #[rustfmt::skip]
    let lines: [&[u8]; 24] = [
        b"k equ 0abh\n", b"dw 10bh\n", b"db 0abH,0x80000000\n", b"times 10bh\n", b"times 1bhlt\n", b"times 1bor ax,bx\n", b"times 1bh\n",
        b"times 2\n", b"equ 1bo\n", b"equ 0ado\n", b"equ *1bo\n", b"; 1bh\n", b"db '1bh'\n", b"db 0dh\n", b"times 0dh\n", b"db 256\n",
        b"db 256dh\n", b"in [es:]0abh\n", b"a.b\n", b"1bh.x\n", b"12b\n", b"equ *5\n", b"a\n", deep.as_bytes(),
    ];
    each(&lines, 3, f);
    #[rustfmt::skip]
    let pieces: [&[u8]; 16] = [
        b" 1bh", b",0abh", b" 256", b" 256dh", b" 12b", b",0x80000000", b" 1bo", b" 0ado", b" 'x", b" a.b", b" a", b"\n", b" db", b" ;1bh",
        b"times", b"0dh",
    ];
    each_behind(&["db", "times 1bh db", "times 1bhlt\n dw"], &pieces, 3, f);
}
