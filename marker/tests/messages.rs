//! What the program says, to the byte, and the status that it ends with. Numbers and spans are the rules'.
mod common;
use common::{Room, Said, notice, run, run_as_is};
use std::fs::File;
use std::io::Write;
use std::process::Stdio;
use std::thread;
use std::time::Duration;

/// A line that is refused, alone and in any accepted source: the rules' number, the span in the line, and the registers.
struct Row {
    number: u8,
    line: String,
    span: (usize, usize),
    registers: (u8, u8),
    words: &'static str,
}

fn rows() -> Vec<Row> {
    let row = |number, line: &str, from, to, words| Row { number, line: line.to_string(), span: (from, to), registers: (255, 255), words };
    let address = |line, from, to, first, second, words| Row { registers: (first, second), ..row(25, line, from, to, words) };
    vec![
        row(2, "né", 1, 2, "a character that is not ASCII"),
        row(3, &format!("equ {}1", "(".repeat(32)), 36, 37, "the expression is nested more than 32 deep"),
        row(10, "k equ 2 3", 8, 9, "the end of the line is expected"),
        row(11, "mov ax bx", 7, 9, "a comma is expected"),
        row(12, "mov [es ax],1", 8, 10, "a colon is expected"),
        row(13, "mov ax,[bx+si 4", 15, 16, "a closing bracket `]` is expected"),
        row(14, "equ (1", 6, 7, "a closing parenthesis `)` is expected"),
        row(15, "db x", 3, 4, "a number or a quoted text is expected"),
        row(15, "dw 1 h", 5, 6, "a number or a quoted text is expected"),
        row(15, "db 0dh,0ah", 4, 6, "a number or a quoted text is expected; `0d` is a prefix: the hexadecimal number is written `00dh`"),
        row(16, "equ 'a", 4, 6, "a quoted text with its closing quote is expected"),
        row(17, "equ 'ab'", 4, 8, "a quoted text of one character is expected"),
        row(20, "1", 0, 1, "an instruction is expected"),
        row(20, "w12 .a equ 5", 4, 5, "an instruction is expected; outside quotes a dot stands only in a name, behind its first character"),
        row(21, "mov ,", 4, 5, "a value or an operand is expected"),
        row(
            21,
            "equ 2147483648",
            4,
            5,
            "a value or an operand is expected; this number has digits that its base doesn't have, or is above 2,147,483,647",
        ),
        // The rules give it no place, and a person gets the operator's.
        row(22, "equ *5", 4, 5, "`*` or `/` stands where a value should begin"),
        row(22, "equ 2*3+(/4)", 9, 10, "`*` or `/` stands where a value should begin"),
        row(23, "db ,,", 0, 2, "`db` or `dw` has no data"),
        row(24, "mov ax,[(]", 8, 9, "a segment or an address is expected in the bracket"),
        address("mov [ ax],bx", 6, 5, 8, 255, "these registers make no address: ax"),
        address("mov [bx+ax],1", 5, 10, 11, 8, "these registers make no address: bx and ax"),
        row(26, "db 'a", 3, 5, "a quoted text is not closed"),
        row(30, "dw 12b", 3, 6, "a binary number has a digit above 1"),
        row(31, "equ 0x80000000", 4, 14, "a number is above 2,147,483,647"),
        row(32, "mov ax,[es:]", 7, 12, "nothing stands behind the segment in the bracket"),
        row(33, "mov ax,[si+di]", 8, 13, "si or di cannot be added to si or di"),
        row(60, "dw 70000", 3, 8, "the number is 70,000, and `dw` takes at most 65,535"),
        row(60, "w1: db 255, 'db', 256 ; dw", 18, 21, "the number is 256, and `db` takes at most 255"),
        row(60, "w2: DW 0,0FFFFFh,12b", 9, 16, "the number is 1,048,575, and `dw` takes at most 65,535"),
        row(60, "w1.a: dw 70000 ; w1.b", 9, 14, "the number is 70,000, and `dw` takes at most 65,535"),
        row(60, "times 70000 Db 0x7fffffff", 15, 25, "the number is 2,147,483,647, and `db` takes at most 255"),
    ]
}

/// The file, the line, the column from 1 on, the words, the line, and a mark under the span, one byte wide at least.
fn report(file: &str, number: usize, line: &str, (from, to): (usize, usize), words: &str) -> String {
    let mark = "^".repeat(to.saturating_sub(from).max(1));
    format!("{file}:{number}:{}: {words}\n    {line}\n    {}{mark}\n", from + 1, " ".repeat(from))
}

#[test]
fn check_marks_the_place_of_each_refusal() {
    let room = Room::new("marks");
    for Row { line, span, words, .. } in rows() {
        room.put("f", format!("nop\n{line}\nret\n"));
        room.run(["check", "f"]).is(1, &(report("f", 2, &line, span, words) + "1 file checked, 1 refused\n"), "");
    }
}

#[test]
fn list_prints_each_refusal_in_numbers_and_says_it_in_words() {
    let room = Room::new("numbers");
    for Row { number, line, span, registers, words } in rows() {
        room.put("f", format!("nop\n{line}\nret\n"));
        let (from, to) = if number == 22 { (0, 0) } else { (span.0 + 4, span.1 + 4) };
        let numbers = format!("REF {number} {from} {to} {} {}\n", registers.0, registers.1);
        room.run(["list", "f"]).is(1, &numbers, &report("f", 2, &line, span, words));
    }
}

#[test]
fn edit_marks_the_place_in_the_new_text_and_leaves_the_file() {
    let room = Room::new("refused");
    for Row { line, span, words, .. } in rows() {
        room.put("f", "nop\n\nret\n");
        room.run(["edit", "f", "2", &line]).is(1, "", &(report("f", 2, &line, span, words) + "f: not edited\n"));
        room.has_only_f("nop\n\nret\n", &line);
        // The last line, with nothing behind it: what is expected at the end is expected there.
        room.put("f", "nop\nret");
        room.run(["edit", "f", "2", &line]).is(1, "", &(report("f", 2, &line, span, words) + "f: not edited\n"));
        room.has_only_f("nop\nret", &line);
    }
}

#[test]
fn a_file_that_another_line_is_refused_for_is_not_edited() {
    let room = Room::new("itself");
    for (old, said) in [
        ("nop\nret\n  dw 12b\n", report("f", 3, "  dw 12b", (5, 8), "a binary number has a digit above 1")),
        ("nop\ndw 70000\ndb 300\n", report("f", 2, "dw 70000", (3, 8), "the number is 70,000, and `dw` takes at most 65,535")),
        ("nop\ntimes 2\n", report("f", 2, "times 2", (0, 5), "`times` has no content")),
        ("nop\n\u{e9}", report("f", 2, "\u{e9}", (0, 1), "a character that is not ASCII")),
        (&" ".repeat(65_537), "f: a file may have at most 65,536 bytes\n".to_string()),
    ] {
        room.put("f", old);
        room.run(["edit", "f", "1", "ret"]).is(1, "", &(said + "f: not edited: the file itself is refused, and is to be mended first\n"));
        room.has_only_f(old, old.trim());
    }
    // The first line is refused for itself, and so is another.
    for (old, said) in [
        ("dw 70000\nnop\ndb 300\n", report("f", 3, "db 300", (3, 6), "the number is 300, and `db` takes at most 255")),
        ("\u{e9}\n12b", report("f", 2, "12b", (0, 3), "a binary number has a digit above 1")),
        // 22, which has no span, at both lines, and behind another
        ("equ *5\nequ /6\n", report("f", 2, "equ /6", (4, 5), "`*` or `/` stands where a value should begin")),
        ("db 256\nequ *5\n", report("f", 2, "equ *5", (4, 5), "`*` or `/` stands where a value should begin")),
    ] {
        room.put("f", old);
        room.run(["edit", "f", "1", "ret"]).is(
            1,
            "",
            &(said + "f: not edited: the file is refused there too, and is to be mended in an editor\n"),
        );
        room.has_only_f(old, old.trim());
    }
}

#[test]
fn the_line_that_a_file_is_refused_for_can_be_exchanged() {
    let room = Room::new("mended");
    for (old, line, text, new) in [
        ("nop\nw1: dw 70000\nret\n", "2", "w1: dw 7000", "nop\nw1: dw 7000\nret\n"),
        ("nop\r\nw1: dw 70000\r\nret\r\n", "2", "w1: dw 7000", "nop\r\nw1: dw 7000\r\nret\r\n"),
        ("dw 12b", "1", "", ""),
        ("; \u{e9}\nnop\n", "1", "; e", "; e\nnop\n"),
        ("nop\ntimes 2\n", "2", "times 2 nop", "nop\ntimes 2 nop\n"),
        ("equ *5\na\n", "1", "equ 5", "equ 5\na\n"),
    ] {
        room.put("f", old);
        room.run(["edit", "f", line, text]).is(0, &format!("f: line {line} replaced\n"), "");
        room.has_only_f(new, text);
        // What is refused in its place is said of the new text, and the file is left.
        room.put("f", old);
        room.run(["edit", "f", line, "db 256"]).is(
            1,
            "",
            &(report("f", line.parse().unwrap(), "db 256", (3, 6), "the number is 256, and `db` takes at most 255") + "f: not edited\n"),
        );
        room.has_only_f(old, text);
    }
}

#[test]
fn an_edit_that_leaves_times_open_names_the_line_that_does() {
    let room = Room::new("times");
    let nested = "times 1\n".repeat(17) + "nop\n";
    for (old, line, text, place) in [
        // The file itself is refused, for the line that goes.
        ("times 2\ndw 70000\n", "2", "dw 7000", report("f", 1, "times 2", (0, 5), "the line above leaves `times` without its content")),
        (&nested, "17", "nop", report("f", 16, "times 1", (0, 5), "the line above leaves `times` without its content")),
        ("nop\n\nret\n", "2", "times 2", report("f", 2, "times 2", (0, 5), "the new text leaves `times` without its content")),
        // The innermost `times` is the one without its content.
        ("nop\n", "2", "times 2 times 3", report("f", 2, "times 2 times 3", (8, 13), "the new text leaves `times` without its content")),
        ("times 2\nnop\n", "1", "ret", report("f", 1, "times 2", (0, 5), "the old line leaves `times` without its content")),
        ("times 2\nnop\n", "2", "ret", report("f", 1, "times 2", (0, 5), "the line above leaves `times` without its content")),
        ("a\n times 2\n\n; a\nnop\n", "5", "ret", report("f", 2, " times 2", (1, 6), "the line above leaves `times` without its content")),
    ] {
        room.put("f", old);
        let said = place + "f: not edited: such lines are changed together, in an editor\n";
        room.run(["edit", "f", line, text]).is(1, "", &said);
        room.has_only_f(old, text);
    }
}

#[test]
fn an_edit_refused_without_a_place_says_so() {
    let room = Room::new("placeless");
    for (old, line, text, said) in [
        ("nop\n\nret\n", "2", "x".repeat(65_530), "f: a file may have at most 65,536 bytes\nf: not edited\n"),
        ("nop\n\nret\n", "2", "a\nb".to_string(), "f: the new text has a line feed, and must be one line\nf: not edited\n"),
        // The rules' order: the line feed comes first, then the length, then the other characters.
        ("nop\n", "1", format!("\u{e9}\n{}", "x".repeat(70_000)), "f: the new text has a line feed, and must be one line\nf: not edited\n"),
        ("nop\n", "1", format!("\u{e9}{}", "x".repeat(70_000)), "f: a file may have at most 65,536 bytes\nf: not edited\n"),
        ("nop\n", "3", "ret".to_string(), "f: not edited: there is no such line: the file has 2 lines\n"),
        ("nop", "2", "ret".to_string(), "f: not edited: there is no such line: the file has 1 line\n"),
        ("", "2", "ret".to_string(), "f: not edited: there is no such line: the file has 1 line\n"),
        ("nop\n", "1234567890", "ret".to_string(), "f: not edited: there is no such line: the file has 2 lines\n"),
    ] {
        room.put("f", old);
        room.run(["edit", "f", line, &text]).is(1, "", said);
        room.has_only_f(old, said);
    }
}

#[test]
fn a_line_number_beyond_all_numbers_is_no_line_of_the_file() {
    let room = Room::new("beyond");
    for line in ["18446744073709551614", "18446744073709551615", "18446744073709551616", "99999999999999999999999999999999"] {
        room.put("f", "nop\n");
        room.run(["edit", "f", line, "ret"]).is(1, "", "f: not edited: there is no such line: the file has 2 lines\n");
        room.has_only_f("nop\n", line);
    }
}

#[test]
fn wrong_usage_has_status_2_and_points_to_the_help() {
    let room = Room::new("usage");
    room.put("f", "nop\n");
    let more = |command: &str| format!("\n`marker {command}--help` tells more\n");
    for (words, said) in [
        (&[][..], "a command is missing: check, list or edit".to_string() + &more("")),
        (&["weld"], "no command `weld`".to_string() + &more("")),
        (&["f", "1", "ret"], "no command `f`".to_string() + &more("")),
        (&["--force"], "no command `--force`".to_string() + &more("")),
        (&["check"], "FILE is missing".to_string() + &more("check ")),
        (&["check", "--"], "FILE is missing".to_string() + &more("check ")),
        (&["check", "--all", "f"], "no option `--all`".to_string() + &more("check ")),
        (&["check", "--force", "f"], "no option `--force`".to_string() + &more("check ")),
        (&["list"], "FILE is missing".to_string() + &more("list ")),
        (&["list", "f", "f"], "one word too many: `f`".to_string() + &more("list ")),
        (&["list", "-l", "f"], "no option `-l`".to_string() + &more("list ")),
        (&["edit"], "FILE is missing".to_string() + &more("edit ")),
        (&["edit", "f"], "LINE is missing".to_string() + &more("edit ")),
        (&["edit", "f", "1"], "TEXT is missing".to_string() + &more("edit ")),
        (&["edit", "f", "1", "ret", "more"], "one word too many: `more`".to_string() + &more("edit ")),
        // An option stands in front of the file; behind it every word is what its place says.
        (&["edit", "f", "1", "ret", "--force"], "one word too many: `--force`".to_string() + &more("edit ")),
        (&["edit", "f", "--force", "1", "ret"], "LINE is a number from 1 on, not `--force`".to_string() + &more("edit ")),
        (&["edit", "--forced", "f", "1", "ret"], "no option `--forced`".to_string() + &more("edit ")),
        (&["--version", "f"], "one word too many: `f`".to_string() + &more("")),
    ] {
        room.run(words).is(2, "", &format!("marker: {said}"));
        room.has_only_f("nop\n", &said);
    }
    for line in ["0", "x", "-1", "", "1x", "+1", " 1", "1 ", "0x1", "1.5", "\u{ff11}", "00"] {
        room.run(["edit", "f", line, "ret"]).is(2, "", &format!("marker: LINE is a number from 1 on, not `{line}`{}", more("edit ")));
        room.has_only_f("nop\n", line);
    }
}

#[test]
fn help_tells_of_each_command_and_each_status() {
    let room = Room::new("help");
    for (ways, wanted) in [
        (
            &[&["--help"][..], &["-h"], &["help"]][..],
            &["marker check FILE..", "marker list FILE", "marker edit FILE LINE TEXT", "--version"][..],
        ),
        (&[&["check", "--help"], &["check", "-h"], &["help", "check"]], &["marker check FILE..", "standard input"]),
        (&[&["list", "--help"], &["list", "-h"], &["help", "list"]], &["marker list FILE", "REF", "END", "standard input"]),
        (
            &[&["edit", "--help"], &["edit", "-h"], &["help", "edit"]],
            &["marker edit [--force] FILE LINE TEXT", "--force", "standard input"],
        ),
    ] {
        let said: Vec<Said> = ways.iter().map(|words| room.run(*words)).collect();
        let help = &said[0].out;
        for said in &said {
            said.is(0, help, "");
        }
        for word in wanted.iter().chain(&["Exit status: 0 ", " 1 ", " 2 "]) {
            assert!(help.contains(word), "{:?} says nothing of `{word}`:\n{help}", ways[0]);
        }
        assert!(help.ends_with(".\n") && help.lines().all(|line| line.len() <= 90), "{help}");
    }
}

#[test]
fn the_version_is_the_packages() {
    let room = Room::new("version");
    for word in ["--version", "-V"] {
        room.run([word]).is(0, &format!("marker {}\n", env!("CARGO_PKG_VERSION")), "");
    }
}

#[test]
fn check_goes_through_all_files_and_counts_them() {
    let room = Room::new("files");
    room.put("a", "nop\n");
    room.put("b", "ret");
    room.put("c", "nop\n\ndb x");
    room.put("d", "1");
    std::fs::create_dir(room.path("e")).unwrap();
    let c = report("c", 3, "db x", (3, 4), "a number or a quoted text is expected");
    let d = report("d", 1, "1", (0, 1), "an instruction is expected");
    room.run(["check", "a"]).is(0, "1 file checked, none refused\n", "");
    room.run(["check", "a", "b", "a"]).is(0, "3 files checked, none refused\n", "");
    room.run(["check", "c", "a", "d"]).is(1, &format!("{c}{d}3 files checked, 2 refused\n"), "");
    let none = "marker: none: No such file or directory\n";
    let folder = "marker: e: this is a folder, and no regular file\n";
    room.run(["check", "none", "c", "e", "a"]).is(2, &format!("{c}2 files checked, 1 refused, 2 not read\n"), &format!("{none}{folder}"));
    room.run(["check", "none"]).is(2, "0 files checked, none refused, 1 not read\n", none);
    room.run(["list", "none"]).is(2, "", none);
    room.run(["list", "e"]).is(2, "", folder);
    room.run(["edit", "none", "1", "nop"]).is(2, "", none);
    room.run(["check", "--", "a"]).is(0, "1 file checked, none refused\n", "");
}

#[test]
fn a_file_name_too_long_is_said_and_nothing_is_made() {
    let room = Room::new("too-long");
    for name in ["a".repeat(256), "a".repeat(5000)] {
        let said = format!("marker: {name}: File name too long\n");
        room.run(["edit", &name, "1", "nop"]).is(2, "", &said);
        room.run(["list", &name]).is(2, "", &said);
    }
    assert!(room.names().is_empty());
}

#[test]
fn a_dash_is_standard_input() {
    let room = Room::new("dash");
    let on = |words: &[&str], input: &str| run(&mut room.marker(words), input.as_bytes());
    on(&["check", "-"], "nop\n").is(0, "1 file checked, none refused\n", "");
    on(&["check", "-"], "").is(0, "1 file checked, none refused\n", "");
    let said = report("-", 2, "db x", (3, 4), "a number or a quoted text is expected");
    on(&["check", "-"], "nop\ndb x\n").is(1, &format!("{said}1 file checked, 1 refused\n"), "");
    on(&["list", "-"], "k equ 2\n").is(0, "ST 0\nLL 0 1\nST 2\nVC 6 7 2\nLC 2 7\nEND 5\n", "");
    on(&["list", "-"], "nop\ndb x\n").is(1, "REF 15 7 8 255 255\n", &said);
    on(&["edit", "-", "2", "hlt"], "nop\nret\n").is(0, "nop\nhlt\n", "");
    on(&["edit", "-", "2", "hlt"], "nop\r\nret\r\n").is(0, "nop\r\nhlt\r\n", "");
    on(&["edit", "-", "2", "db x"], "nop\nret\n").is(1, "", &(said + "-: not edited\n"));
    // A file of that name has a path.
    room.put("-", "nop\n");
    room.run(["check", "./-"]).is(0, "1 file checked, none refused\n", "");
    room.run(["edit", "./-", "1", "ret"]).is(0, "./-: line 1 replaced\n", "");
    assert_eq!(room.get("-"), b"ret\n");
    assert_eq!(room.names(), ["-"]);
}

#[test]
fn standard_input_is_read_to_its_end_though_it_comes_in_pieces() {
    let room = Room::new("pieces");
    let mut child =
        room.marker(["edit", "-", "1", "hlt"]).stdin(Stdio::piped()).stdout(Stdio::piped()).stderr(Stdio::piped()).spawn().unwrap();
    let mut input = child.stdin.take().unwrap();
    for piece in ["no", "p\nk e", "qu 2", "\n"] {
        input.write_all(piece.as_bytes()).unwrap();
        thread::sleep(Duration::from_millis(50));
    }
    drop(input);
    common::ended(child, Duration::from_secs(60)).is(0, "hlt\nk equ 2\n", "");
}

#[test]
fn a_standard_input_that_cannot_be_read_is_no_end() {
    let room = Room::new("input");
    room.put("f", "");
    let folder = || File::open(&room.0).unwrap();
    let write_only = || File::options().write(true).open(room.path("f")).unwrap();
    for (input, why) in [(&folder as &dyn Fn() -> File, "Is a directory"), (&write_only, "Bad file descriptor")] {
        let said = format!("marker: standard input: {why}\n");
        let on = |words: &[&str]| run_as_is(room.marker(words).stdin(input()), b"");
        on(&["check", "-"]).is(2, "0 files checked, none refused, 1 not read\n", &said);
        on(&["list", "-"]).is(2, "", &said);
        on(&["edit", "-", "1", "nop"]).is(2, "", &said);
    }
}

#[test]
fn a_standard_output_that_is_full_has_status_2() {
    let room = Room::new("full-output");
    let Ok(full) = File::options().write(true).open("/dev/full") else {
        return notice("a_standard_output_that_is_full_has_status_2: skipped, since there is no /dev/full");
    };
    room.put("f", "nop\nret\n");
    room.put("g", "nop\ndb x\n");
    let on = |words: &[&str]| {
        let child = room.marker(words).stdin(Stdio::null()).stdout(full.try_clone().unwrap()).stderr(Stdio::piped()).spawn().unwrap();
        common::ended(child, Duration::from_secs(60))
    };
    let said = "marker: standard output: No space left on device\n";
    for words in
        [&["--help"][..], &["--version"], &["check", "f"], &["check", "g"], &["list", "f"], &["list", "g"], &["edit", "-", "1", "a"]]
    {
        on(words).is(2, "", said);
    }
    // An edit that is done is done, and that is said elsewhere.
    on(&["edit", "f", "2", "hlt"]).is(0, "", "f: line 2 replaced\n");
    assert_eq!(room.get("f"), b"nop\nhlt\n");
    assert_eq!(room.names(), ["f", "g"]);
}

#[test]
fn an_output_that_nobody_reads_ends_the_program_in_silence() {
    let room = Room::new("broken-pipe");
    room.put("f", "in\n".repeat(21_845));
    let done = "f: line 1 replaced\n";
    // But for an edit that is done: that is said elsewhere.
    for (words, status, err) in
        [(&["list", "f"][..], 2, ""), (&["check", "f"], 2, ""), (&["--help"], 2, ""), (&["edit", "f", "1", "ret"], 0, done)]
    {
        let (reader, writer) = std::io::pipe().unwrap();
        drop(reader);
        let child = room.marker(words).stdin(Stdio::null()).stdout(writer).stderr(Stdio::piped()).spawn().unwrap();
        common::ended(child, Duration::from_secs(60)).is(status, "", err);
    }
    room.has_only_f(format!("ret\n{}", "in\n".repeat(21_844)), "nobody reads");
}

#[test]
fn an_output_or_input_that_is_closed_is_no_empty_one() {
    let room = Room::new("closed-said");
    room.put("f", "nop\n");
    let bad = "marker: standard output: Bad file descriptor\n";
    for first in ["exec >&-", "exec 1</dev/null"] {
        for words in [&["list", "f"][..], &["check", "f"], &["--version"]] {
            run(&mut room.below(first, words), b"").is(2, "", bad);
        }
        run(&mut room.below(&format!("{first} <f"), ["edit", "-", "1", "ret"]), b"").is(2, "", bad);
        run(&mut room.below(first, ["edit", "f", "1", "hlt"]), b"").is(0, "", "f: line 1 replaced\n");
        room.has_only_f("hlt\n", first);
    }
    let bad = "marker: standard input: Bad file descriptor\n";
    run(&mut room.below("exec <&-", ["check", "-"]), b"").is(2, "0 files checked, none refused, 1 not read\n", bad);
    run(&mut room.below("exec <&-", ["list", "-"]), b"").is(2, "", bad);
    // Where a person sends the words away, they are gone.
    run(&mut room.below("exec >/dev/null", ["list", "f"]), b"").is(0, "", "");
}

#[test]
fn closed_outputs_bring_no_words_into_a_file() {
    let room = Room::new("closed");
    room.put("f", "nop\n");
    let closed = |words: &[&str]| run(&mut room.below("exec >&- 2>&-", words), b"").status;
    assert_eq!(closed(&["edit", "f", "1", "db"]), Some(1));
    room.has_only_f("nop\n", "refused");
    assert_eq!(closed(&["edit", "f", "1", "ret"]), Some(0));
    room.has_only_f("ret\n", "accepted");
    let closed = |words: &[&str]| run(&mut room.below("exec <&- >&- 2>&-", words), b"").status;
    assert_eq!(closed(&["edit", "f", "1", "hlt"]), Some(0));
    room.has_only_f("hlt\n", "accepted with no input either");
}

#[test]
fn the_mark_stands_under_the_place_in_lines_of_all_kinds() {
    let room = Room::new("lines");
    let value = "a value or an operand is expected";
    for (source, said) in [
        // The place of the line feed, or of the end of the file, is behind the line.
        ("k equ\nnop", format!("f:1:6: {value}\n    k equ\n         ^\n")),
        ("k equ", format!("f:1:6: {value}\n    k equ\n         ^\n")),
        // CR is a byte of the line, and is not shown.
        ("k equ\r\nnop\r\n", format!("f:1:7: {value}\n    k equ\n          ^\n")),
        // Tabs stay, so that the mark stands under its place however wide they are.
        ("\t\tk equ\t*1\n", "f:1:9: `*` or `/` stands where a value should begin\n    \t\tk equ\t*1\n    \t\t     \t^\n".to_string()),
        // What a terminal would obey is shown as `?`.
        ("a\x1b[2J", "f:1:2: an instruction is expected\n    a?[2J\n     ^\n".to_string()),
        ("a\0", "f:1:2: an instruction is expected\n    a?\n     ^\n".to_string()),
        ("nop\n\n\n   1 ; x\n", "f:4:4: an instruction is expected\n       1 ; x\n       ^\n".to_string()),
    ] {
        room.put("f", source);
        room.run(["check", "f"]).is(1, &format!("{said}1 file checked, 1 refused\n"), "");
    }
}

#[test]
fn of_a_long_line_the_part_round_the_place_is_shown() {
    let room = Room::new("long-line");
    let deep = format!("{}nop", "times 1 ".repeat(17));
    let data = |before: usize, after: usize| format!("db {}x{}", "1,".repeat(before), ",1".repeat(after));
    let cases = [
        (deep, 128..133, "`times` is nested more than 16 deep"),
        (data(5, 1000), 13..14, "a number or a quoted text is expected"),
        (data(1000, 1000), 2003..2004, "a number or a quoted text is expected"),
        (data(1000, 0), 2003..2004, "a number or a quoted text is expected"),
        (format!("{}equ", " ".repeat(65_533)), 65_536..65_536, "a value or an operand is expected"),
        // A mark never runs beyond what is shown.
        (format!("db '{}", "a".repeat(5000)), 3..5004, "a quoted text is not closed"),
    ];
    for (line, place, words) in cases {
        room.put("f", &line);
        let said = room.run(["check", "f"]);
        assert_eq!((said.status, said.err.as_str()), (Some(1), ""));
        let lines: Vec<&str> = said.out.lines().collect();
        assert_eq!(lines.len(), 4, "{}", said.out);
        assert_eq!((lines[0], lines[3]), (format!("f:1:{}: {words}", place.start + 1).as_str(), "1 file checked, 1 refused"));
        let (shown, mark) = (lines[1].strip_prefix("    ").unwrap(), lines[2].strip_prefix("    ").unwrap());
        let (blanks, carets) = mark.split_at(mark.find('^').unwrap());
        assert!(blanks.bytes().all(|byte| byte == b' ') && carets.bytes().all(|byte| byte == b'^'), "{mark}");
        // The part begins so many bytes into the line that the mark is where the place is.
        let (part, dots) = shown.strip_prefix("...").map_or((shown, 0), |part| (part, 3));
        let begin = place.start + dots - blanks.len();
        assert_eq!(begin > 0, dots > 0, "dots stand where something is left out");
        let (part, end) = part.strip_suffix("...").map_or((part, line.len()), |part| (part, begin + part.len()));
        assert_eq!(part, &line[begin..end]);
        assert!(part.len() <= 100 && part.len() >= 50, "{} bytes are shown", part.len());
        assert!((begin..=end).contains(&place.start));
        assert_eq!(carets.len(), place.end.min(end).saturating_sub(place.start).max(1));
        // Every command says it alike.
        let report = lines[..3].join("\n") + "\n";
        assert_eq!(room.run(["list", "f"]).err, report);
        room.put("f", "");
        room.run(["edit", "f", "1", &line]).is(1, "", &(report + "f: not edited\n"));
        room.has_only_f("", "refused");
    }
}

#[test]
fn list_prints_the_samples_of_the_rules() {
    let room = Room::new("samples");
    for (source, wanted) in [
        ("", ""),
        ("\n \t; nothing\r\n", ""),
        ("k equ 2\n", "ST 0; LL 0 1; ST 2; VC 6 7 2; LC 2 7"),
        ("mov ax,[bx+4]", "ST 0; OR 4 6 8; VC 11 12 4; PF 10 12 0; OX 7 13 7 1 0 0; LI 0 13 0 2 4 13"),
        ("equ -1+2*3", "ST 0; VC 5 6 1; PF 4 6 1; VC 7 8 2; VC 9 10 3; IN 7 10 2; IN 4 10 0; LC 0 10"),
        ("equ 8/4/2", "ST 0; VC 4 5 8; VC 6 7 4; IN 4 7 3; VC 8 9 2; IN 4 9 3; LC 0 9"),
        ("equ $$", "ST 0; VS 4 5; LC 0 6"),
        ("dw 4464", "ST 0; LD 0 7 2 112 17"),
        ("dw 65535\ndb 255", "ST 0; LD 0 8 2 255 255; ST 9; LD 9 15 1 255"),
        ("jmp 1:2", "ST 0; VC 4 5 1; VC 6 7 2; OF 4 7; LI 0 7 59 1 4 7"),
        ("equ 0x7fffffff", "ST 0; VC 4 14 2147483647; LC 0 14"),
        ("dw 0abh\ndw 10bh", "ST 0; LD 0 7 2 171 0; ST 8; LD 8 15 2 11 1"),
    ] {
        let lines: Vec<&str> = wanted.split("; ").filter(|line| !line.is_empty()).collect();
        let wanted = lines.iter().map(|line| format!("{line}\n")).collect::<String>() + &format!("END {}\n", lines.len());
        room.put("f", source);
        room.run(["list", "f"]).is(0, &wanted, "");
    }
}

#[test]
fn list_prints_the_longest_sources_and_listings() {
    let room = Room::new("longest");
    // 524,288 bytes of listing: ST has 6 for each label, LL has 10.
    room.put("f", "a\n".repeat(32_768));
    let labels: String = (0..32_768).map(|n| format!("ST {}\nLL {} {}\n", 2 * n, 2 * n, 2 * n + 1)).collect();
    room.run(["list", "f"]).is(0, &(labels + "END 65536\n"), "");
    room.put("f", "\n".repeat(65_536));
    room.run(["list", "f"]).is(0, "END 0\n", "");
    room.put("f", "\n".repeat(65_535) + "a");
    room.run(["list", "f"]).is(0, "ST 65535\nLL 65535 65536\nEND 2\n", "");
    for (length, byte) in [(65_537, b'\n'), (65_537, 0x80), (200_000, b'\n')] {
        room.put("f", vec![byte; length]);
        room.run(["list", "f"]).is(1, "REF 1 0 0 255 255\n", "f: a file may have at most 65,536 bytes\n");
    }
}
