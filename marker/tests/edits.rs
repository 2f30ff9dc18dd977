//! Accepted edits, byte for byte; the same through a file and through standard input and output.
mod common;
use common::{Room, run};
use std::ffi::{OsStr, OsString};
use std::os::unix::ffi::{OsStrExt, OsStringExt};

/// The edit leaves just these bytes, and nothing beside the file.
#[track_caller]
fn accepts(room: &Room, old: impl AsRef<[u8]>, line: usize, text: &str, new: impl AsRef<[u8]>) {
    let (old, new, line) = (old.as_ref(), new.as_ref(), line.to_string());
    room.put("f", old);
    room.run(["edit", "f", &line, text]).is(0, &format!("f: line {line} replaced\n"), "");
    room.has_only_f(new, text);
    run(&mut room.marker(["edit", "-", &line, text]), old).is(0, std::str::from_utf8(new).unwrap(), "");
}

/// The edit is refused with these words, and leaves all as it was.
#[track_caller]
fn refuses(room: &Room, old: impl AsRef<[u8]>, line: usize, text: &str, words: &str) {
    let (old, line) = (old.as_ref(), line.to_string());
    room.put("f", old);
    room.run(["edit", "f", &line, text]).is(1, "", &format!("f: {words}\nf: not edited\n"));
    room.has_only_f(old, words);
    run(&mut room.marker(["edit", "-", &line, text]), old).is(1, "", &format!("-: {words}\n-: not edited\n"));
}

#[test]
fn any_line_can_be_exchanged() {
    let room = Room::new("any-line");
    accepts(&room, "nop\n\nret\n", 1, "k equ 2", "k equ 2\n\nret\n");
    accepts(&room, "nop\n\nret\n", 2, "k equ 2", "nop\nk equ 2\nret\n");
    accepts(&room, "nop\n\nret\n", 3, "", "nop\n\n\n");
    accepts(&room, "nop ; a\nret\n", 1, "; only a comment", "; only a comment\nret\n");
    accepts(&room, "nop\nret\n", 1, "  a: b: c:  mov ax,[bx+si-4] ; x", "  a: b: c:  mov ax,[bx+si-4] ; x\nret\n");
    accepts(&room, "nop\nret\n", 2, "ret", "nop\nret\n");
    // Only the new line is read, so a `times` whose content is in its own line is no hindrance.
    accepts(&room, "times 2 nop\nret\n", 2, "times 3 dw 1", "times 2 nop\ntimes 3 dw 1\n");
}

#[test]
fn no_final_line_feed_is_made_or_lost() {
    let room = Room::new("line-feed");
    accepts(&room, "nop\n\nret\n", 4, "k equ 2", "nop\n\nret\nk equ 2");
    accepts(&room, "nop\n\nret", 3, "k equ 2", "nop\n\nk equ 2");
    accepts(&room, "", 1, "k equ 2", "k equ 2");
    accepts(&room, "", 1, "", "");
    accepts(&room, "nop", 1, "", "");
    accepts(&room, "nop\n", 2, "", "nop\n");
    accepts(&room, "nop\n", 1, "ret", "ret\n");
    accepts(&room, "\n", 1, "ret", "ret\n");
    accepts(&room, "\n", 2, "ret", "\nret");
}

#[test]
fn a_line_that_ends_in_cr_ends_in_cr_again() {
    let room = Room::new("cr");
    accepts(&room, "nop\r\nret\r\n", 1, "hlt", "hlt\r\nret\r\n");
    accepts(&room, "nop\r\nret\r\n", 2, "hlt", "nop\r\nhlt\r\n");
    accepts(&room, "nop\r\nret\r\n", 2, "", "nop\r\n\r\n");
    accepts(&room, "nop\r\n\r\nret\r\n", 2, "hlt ; a", "nop\r\nhlt ; a\r\nret\r\n");
    // A text that brings its own gets no second one.
    accepts(&room, "nop\r\nret\r\n", 1, "hlt\r", "hlt\r\nret\r\n");
    accepts(&room, "nop\r\r\nret\r\n", 1, "hlt", "hlt\r\nret\r\n");
    // The last line without a line feed, with CR and without.
    accepts(&room, "nop\r\nret", 2, "hlt", "nop\r\nhlt");
    accepts(&room, "nop\r\nret\r", 2, "hlt", "nop\r\nhlt\r");
    accepts(&room, "nop\r\n", 2, "hlt", "nop\r\nhlt");
    accepts(&room, "\r", 1, "hlt", "hlt\r");
    // Each line is as its own end was.
    accepts(&room, "nop\nret\r\nhlt\n", 1, "cli", "cli\nret\r\nhlt\n");
    accepts(&room, "nop\nret\r\nhlt\n", 2, "cli", "nop\ncli\r\nhlt\n");
    accepts(&room, "nop\nret\r\nhlt\n", 3, "cli", "nop\nret\r\ncli\n");
    // A CR that the text brings into a line without one is the caller's wish; one inside a line ends none.
    accepts(&room, "nop\nret\n", 1, "hlt\r", "hlt\r\nret\n");
    accepts(&room, "nop\r ; a\nret\n", 1, "hlt", "hlt\nret\n");
}

#[test]
fn a_refused_line_of_a_crlf_file_is_shown_without_its_cr() {
    let room = Room::new("cr-refused");
    room.put("f", "nop\r\nret\r\n");
    room.run(["edit", "f", "2", "db x"]).is(1, "", "f:2:4: a number or a quoted text is expected\n    db x\n       ^\nf: not edited\n");
    room.has_only_f("nop\r\nret\r\n", "refused");
}

const TOO_LONG: &str = "a file may have at most 65,536 bytes";

#[test]
fn a_file_can_grow_to_65536_bytes_and_no_further() {
    let room = Room::new("grow");
    let comments = ";\n".repeat(32_767);
    accepts(&room, format!("{comments}n"), 32_768, "mo", format!("{comments}mo"));
    refuses(&room, format!("{comments}n"), 32_768, "moo", TOO_LONG);
    accepts(&room, format!("{comments}n\n"), 1, ";", format!("{comments}n\n"));
    refuses(&room, format!("{comments}n\n"), 1, "; ", TOO_LONG);
    accepts(&room, format!("{comments}n\n"), 32_769, "", format!("{comments}n\n"));
    refuses(&room, format!("{comments}n\n"), 32_769, "a", TOO_LONG);
    // In one step from nothing; the argument itself is that long.
    let long = format!("; {}", "x".repeat(65_534));
    accepts(&room, "", 1, &long, &long);
    refuses(&room, "", 1, &format!("{long}x"), TOO_LONG);
    // The CR that is kept counts.
    let old = format!("n\r\n{}", ";\n".repeat(32_766));
    accepts(&room, &old, 1, "nn", format!("nn\r\n{}", ";\n".repeat(32_766)));
    refuses(&room, &old, 1, "nnn", TOO_LONG);
}

#[test]
fn a_file_of_65536_bytes_can_be_edited_though_its_listing_is_much_longer() {
    let room = Room::new("longest");
    // The listing of a line `in` has 32 bytes, ST 6 and LI 26: 699,040 for all of them.
    let lines = |from: usize, to: usize| "in\n".repeat(to - from);
    let old = lines(0, 21_845) + "a";
    assert_eq!(old.len(), 65_536);
    accepts(&room, &old, 1, "or", format!("or\n{}a", lines(1, 21_845)));
    refuses(&room, &old, 1, "cli", TOO_LONG);
    accepts(&room, &old, 10_000, "a", format!("{}a\n{}a", lines(0, 9_999), lines(10_000, 21_845)));
    accepts(&room, &old, 21_846, "b", lines(0, 21_845) + "b");
    accepts(&room, &old, 21_846, "", lines(0, 21_845));
}

#[test]
fn a_text_may_begin_with_a_dash() {
    let room = Room::new("dash-text");
    room.put("f", "nop\n");
    for text in ["-", "--", "--help", "--force", "-h", "-1"] {
        // No statement begins so; it is the rules that say it, and not the usage.
        let said = format!("f:1:1: an instruction is expected\n    {text}\n    ^\nf: not edited\n");
        room.run(["edit", "f", "1", text]).is(1, "", &said);
        room.has_only_f("nop\n", text);
    }
}

#[test]
fn a_text_that_is_no_utf_8_is_refused_where_it_stops_being_ascii() {
    let room = Room::new("no-utf-8");
    room.put("f", "nop\n");
    let text = OsStr::from_bytes(b"a \xff\xfe");
    let said = "f:1:3: a character that is not ASCII\n    a \u{fffd}\u{fffd}\n      ^\nf: not edited\n";
    room.run([OsStr::new("edit"), OsStr::new("f"), OsStr::new("1"), text]).is(1, "", said);
    room.has_only_f("nop\n", "no UTF-8");
}

#[test]
fn a_line_number_may_have_zeros_in_front() {
    let room = Room::new("zeros");
    room.put("f", "nop\nret\n");
    room.run(["edit", "f", "0002", "hlt"]).is(0, "f: line 2 replaced\n", "");
    room.has_only_f("nop\nhlt\n", "zeros");
}

#[test]
fn a_file_may_have_any_name() {
    let room = Room::new("names");
    let long = |length: usize| OsString::from_vec(vec![b'n'; length]);
    let two = [0xc3, 0xa9].repeat(127);
    for name in [
        OsStr::new("a b"),
        OsStr::new("  "),
        OsStr::new("f:1:2"),
        OsStr::new("'\"$(x)*`"),
        OsStr::new("\u{fc}ber.asm"),
        OsStr::new(".hidden"),
        OsStr::new("..."),
        OsStr::new("a\nb"),
        OsStr::new("\u{1b}[2J"),
        OsStr::from_bytes(b"\xff\xfe.asm"),
        OsStr::from_bytes(&two),
        &long(199),
        &long(200),
        &long(201),
        &long(255),
    ] {
        room.put(name, "nop\nret\n");
        // What could do something to a terminal is not printed.
        let said = name.to_string_lossy().replace(['\n', '\u{1b}'], "?");
        room.run([OsStr::new("edit"), name, OsStr::new("2"), OsStr::new("hlt")]).is(0, &format!("{said}: line 2 replaced\n"), "");
        assert_eq!(room.get(name), b"nop\nhlt\n");
        assert_eq!(room.names(), [name]);
        room.run([OsStr::new("check"), name]).is(0, "1 file checked, none refused\n", "");
        std::fs::remove_file(room.path(name)).unwrap();
    }
}

#[test]
fn a_name_that_begins_with_a_dash_has_a_path_or_stands_behind_two_dashes() {
    let room = Room::new("dash-name");
    room.put("-f", "nop\n");
    room.run(["edit", "./-f", "1", "hlt"]).is(0, "./-f: line 1 replaced\n", "");
    assert_eq!(room.get("-f"), b"hlt\n");
    room.run(["edit", "--", "-f", "1", "ret"]).is(0, "-f: line 1 replaced\n", "");
    assert_eq!(room.get("-f"), b"ret\n");
    room.run(["edit", "--force", "--", "-f", "1", "cli"]).is(0, "-f: line 1 replaced\n", "");
    assert_eq!(room.get("-f"), b"cli\n");
    room.run(["check", "--", "-f"]).is(0, "1 file checked, none refused\n", "");
    room.run(["edit", "-f", "1", "ret"]).is(2, "", "marker: no option `-f`\n`marker edit --help` tells more\n");
    assert_eq!(room.get("-f"), b"cli\n");
    assert_eq!(room.names(), ["-f"]);
}

#[test]
fn a_path_may_go_through_other_folders() {
    let room = Room::new("paths");
    std::fs::create_dir(room.path("d")).unwrap();
    room.put("d/f", "nop\n");
    let whole = room.path("d/f");
    for (number, path) in ["d/f", "./d//f", "d/../d/./f", whole.to_str().unwrap()].into_iter().enumerate() {
        let text = format!("k equ {number}");
        room.run(["edit", path, "1", &text]).is(0, &format!("{path}: line 1 replaced\n"), "");
        assert_eq!(room.get("d/f"), format!("{text}\n").as_bytes());
        assert_eq!(common::names(&room.path("d")), ["f"]);
    }
    room.run(["edit", "d/f/", "1", "ret"]).is(2, "", "marker: d/f/: Not a directory\n");
    room.run(["edit", "", "1", "ret"]).is(2, "", "marker: : No such file or directory\n");
    assert_eq!(room.names(), ["d"]);
}

#[test]
fn many_edits_one_after_the_other_leave_what_they_should() {
    let room = Room::new("row");
    let mut lines: Vec<String> = (0..40).map(|n| format!("k{n} equ {n}")).collect();
    room.put("f", lines.join("\n"));
    for step in 0..200_usize {
        let line = step * 17 % 40;
        lines[line] = ["", "nop", "a: db 'x', 1", "; a", "jmp 1:2"][step % 5].to_string();
        room.run(["edit", "f", &(line + 1).to_string(), &lines[line]]).is(0, &format!("f: line {} replaced\n", line + 1), "");
        room.has_only_f(lines.join("\n"), "a row of edits");
    }
}
