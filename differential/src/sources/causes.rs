//! Each cause of a refusal as the beginning of a line, and sources with something behind it; statements as deep as the limits allow.

/// Numbers that are refused when they become the token ahead.
pub const REFUSED: [&str; 4] = ["12b", "2b", "0x80000000", "0d2147483648"];

/// Beginnings of a line that end right where a refusal is due or has just been missed: each cause, and lines that are whole.
pub fn causes() -> Vec<String> {
    #[rustfmt::skip]
    let mut list: Vec<String> = [
        // whole statements, and statements that go on
        "", "a", "a:", "nop", "rep", "mov ax,bx", "mov ax,1", "mov ax,[1]", "db 1", "db 'a',", "equ 1", "equ $", "equ $$",
        "equ (1)", "times 2 a", "times 2", "times 2 ", "jmp 1:2", "jmp 1:", "mov byte", "mov byte [bx]", "mov [bx+si]",
        "mov [bx+4]", "mov [bx", "mov [bx+", "mov [es:1]",
        // 10 to 14
        "equ 1 1", "mov ax,bx cx", "mov ax bx", "jmp es:", "mov [es ", "mov [es]", "mov [1", "mov [1 1", "mov [bx+si+1",
        "equ (1", "equ (1 1", "equ (1]",
        // 15 to 17, 20, 21
        "db a", "db 1 a", "db .", "db 1+", "equ '", "equ 'ab'", "equ ''", "equ 'ab", ".", "1", "'a'", "mov !", "equ ", "equ )", "mov ,",
        "mov ax,", "equ 1+", "equ -", "equ (",
        // 22 to 26
        "equ *", "equ /", "equ 1**", "equ (/", "equ -*", "mov *", "mov ax,*", "mov [1+*", "mov [bx*", "times *", "db", "db ", "dw ,",
        "db ''", "db '',", "mov []", "mov [", "mov [.", "mov [+1]", "mov [$]", "mov [']", "mov [ax", "mov [ ax]", "mov [es:al", "mov [es: cx]",
        "mov [bx+bx", "mov [si+ax]", "mov [bp+cl]", "db 'a", "db 1,'",
        // 60, and numbers that just fit
        "db 256", "dw 65536", "db 1,256", "db 'a' 0x100", "DW ,70000", "times 2 db 256", "a: dw 2147483647", "db 255", "dw 65535",
        "in db,256",
        // dots: in names, and where a token starts
        "a.", "a.b", "a..b:", "in ax.b", "in es.", "in [bx.a]", "in [es.x:1", "in [bx+si.a", "in [si+di.]", "mov.x", "rep.", "times.x 2",
        "times a.b", "times 2 a.b", "equ -a.", "equ $.", "equ 1.", "a .b", "in [.", "db 'a'.", "db a.b",
        // a letter behind a run: numbers, Invalid ones, prefixes, and names directly behind a number
        "dw 0abh", "dw 10bh", "db 10bH", "db 0adh", "db 256dh", "db 0dh,0ah", "equ 1bo", "equ 9bO", "equ 00bh", "equ 7ffffffbh",
        "equ 0ffffffffbh", "equ 0ado", "equ *1bo", "equ (1dh", "in 1bh", "in 0abh,", "jmp 1bh:", "in [1bh", "in [1bo", "in [bx+1bh", "in [es:]1bh",
        "times 1bh", "times 10bh", "times 1bhlt", "times 1bor ax,bx", "times 0dh", "times 1bh.x", "times 0b12bh", "times 0o18dh", "1bh", "a 0abh", "rep 1bo",
        "equ 0b1h",
        // 32 to 34
        "mov [es:]", "mov ax,[ ds : ]", "mov [es:],ax", "mov [es:", "mov [si+si", "mov [si+di", "mov [di + si]", "mov [es:di+di",
        "times 1", "times 1 times 2", "times times", "times 1\ntimes 2\n", "times 1 ;c",
        // invalid characters
        "12a", "0B1", "equ 2147483648", "equ 12a", "!",
    ]
    .map(String::from)
    .to_vec();
    // 3: just inside and just outside, by each kind of opener; 5 likewise
    for count in [30, 31, 32, 33] {
        for opener in ["(", "-", "+", "(1+", "(1*", "1+-", "-(", "(-", "1*(", "1-1*("] {
            let row = opened(opener, count);
            for head in ["equ ", "mov [1+", "mov [bx+", "mov ax,", "jmp 1:", "times "] {
                list.push(format!("{head}{row}"));
                list.push(format!("{head}{row}1"));
                list.push(format!("{head}{row}*"));
                list.push(format!("{head}{row}1{}", ")".repeat(row.matches('(').count())));
            }
        }
    }
    for count in [15, 16, 17] {
        for unit in ["times 1 ", "times 1\n", "times 1 ;\n\n", "TIMES times\n"] {
            let tails =
                ["", "a", "times", "times ", "times *", "a\ntimes 1 b", "5", "db 256", "db 256,2b", "times.x", "a.b", "times 1bh", "1bo"];
            for tail in tails {
                list.push(unit.repeat(count) + tail);
            }
        }
    }
    list
}

/// Openers of so many levels in all: the last ones are parentheses where one use takes more levels than are left.
pub fn opened(opener: &str, count: usize) -> String {
    // how many levels one use takes
    let levels = opener.matches(['(', '+', '-', '*']).count();
    opener.repeat(count / levels) + &"(".repeat(count % levels)
}

/// Every cause, alone and with something directly behind it, at the line's end, and at the next line's start; and as the
/// second line.
pub fn behind_causes(f: &mut impl FnMut(&[u8])) {
    for cause in causes() {
        for between in ["", " ", "\n", " ;c\n\n", "\r", ",", "]", ")", ":"] {
            for behind in REFUSED.iter().chain(&["", "1", "a", "*", "(", "'", ".", "times", "]", "$", "\u{7f}"]) {
                let line = format!("{cause}{between}{behind}");
                f(line.as_bytes());
                f(format!("k equ 2\n{line}\n").as_bytes());
            }
        }
    }
}

/// Statements at both limits at once and a step beyond: so many `times`, and in the innermost an operand or a line whose expression is so deep,
/// with each kind of value in it.
pub fn deepest() -> Vec<String> {
    let mut list = Vec::new();
    for times in [0, 15, 16] {
        for head in ["mov ax,[es:bx+si+", "mov word [bp-", "mov byte al,", "jmp 1:", "equ ", "times "] {
            for opener in ["(", "-", "1+("] {
                for depth in [30, 31, 32] {
                    for value in ["1", "0FFFFh", "'c'", "$$", "name", "12b", "0xffffffff"] {
                        let row = opened(opener, depth);
                        let closing = ")".repeat(row.matches('(').count());
                        let behind = if head.contains('[') { "],ax" } else { "" };
                        list.push(format!("{}{head}{row}{value}{closing}{behind}", "times 1 ".repeat(times)));
                    }
                }
            }
        }
    }
    list
}
