//! The calls on files that an edit makes, seen from below by calls.c: their order, and what is left where one of them fails. A program that
//! leaves the flush, an answer or the order out fails here.
mod common;
use common::{Calls, Room, Said, access_list, attribute, is_root, notice, run, set_attribute};
use std::collections::BTreeSet;
use std::fs::{self, Permissions};
use std::os::unix::fs::{MetadataExt, PermissionsExt, chown, symlink};
use std::path::Path;
use std::process::{Command, Stdio};

/// Whether these are the calls of an edit that neither a crash nor a power failure can tear: the file is locked before it is read; the new
/// one is made beside it for this edit alone, gets all that it has, is flushed, closed, and then renamed, and the folder is flushed.
/// Gives the new file's name.
fn order<'a>(log: &'a [String], path: &Path, length: usize) -> Result<&'a str, String> {
    let all = |call: &str| -> Vec<usize> {
        let is_call = |line: &str| line.strip_prefix(call).is_some_and(|rest| rest.is_empty() || rest.starts_with(' '));
        (0..log.len()).filter(|n| is_call(&log[*n])).collect()
    };
    let one = |call: &str| match all(call)[..] {
        [n] => Ok(n),
        ref found => Err(format!("`{call}` is called {} times", found.len())),
    };
    let holds = |what: bool, words: &str| if what { Ok(()) } else { Err(words.to_string()) };
    let (lock, open, close, rename) = (one("flock file")?, one("open new")?, one("close new")?, one("rename")?);
    let (flush, folder_flush) = (one("fsync new")?, one("fsync folder")?);
    let (reads, writes) = (all("read file"), all("write new"));
    let folder = path.parent().ok_or("there is no folder")?;
    holds(log[one("open folder")?] == format!("open folder 0 {}", folder.display()), "another folder is flushed")?;
    holds(reads.iter().all(|read| lock < *read && *read < rename) && !reads.is_empty(), "the file is not read under the lock")?;
    holds(all("close file").iter().all(|close| rename < *close), "the file is let go before the rename")?;
    let new = log[open].strip_prefix("open new 600 ").ok_or("the new file is not for its owner alone")?;
    holds(Path::new(new).parent() == path.parent(), "the new file is in another folder")?;
    let written: usize = writes.iter().map(|n| log[*n].strip_prefix("write new ").unwrap().parse::<usize>().unwrap()).sum();
    holds(written == length, "not all is written")?;
    holds(all("write").len() == writes.len(), "something else is written")?;
    one("fchmod new")?;
    let changes = [&writes[..], &all("fchmod"), &all("fchown"), &all("fsetxattr")].concat();
    holds(changes.iter().all(|change| open < *change && *change < flush), "something changes behind the flush")?;
    holds(flush < close, "the new file is not flushed before it is closed")?;
    holds(close < rename, "the new file is not closed before it is renamed")?;
    holds(log[rename] == format!("rename {new} {}", path.display()), "something else is renamed")?;
    holds(rename < folder_flush, "the folder is not flushed behind the rename")?;
    holds(all("unlink").is_empty(), "something is removed")?;
    Ok(new)
}

#[test]
fn the_new_file_is_whole_and_on_the_disk_before_it_takes_the_name() {
    let (room, calls) = (Room::new("order"), Calls::new("order"));
    let path = room.0.canonicalize().unwrap().join("f");
    let mut names = BTreeSet::new();
    let long = format!("nop\n{}", "; a\n".repeat(16_000));
    for (old, text, new) in [
        ("nop\nret\n", "k equ 2", "nop\nk equ 2\n".to_string()),
        ("nop\nret\n", "ret", "nop\nret\n".to_string()),
        ("nop\n", "", "nop\n".to_string()),
        (&long, "nop", long.replacen("; a", "nop", 1)),
    ] {
        for short in [&[][..], &[("CALLS_SHORT", "1")]] {
            if !short.is_empty() && old.len() > 1000 {
                continue;
            }
            room.put("f", old);
            run(calls.on(&mut room.marker(["edit", "f", "2", text]), short), b"").is(0, "f: line 2 replaced\n", "");
            room.has_only_f(&new, "order");
            let log = calls.log();
            let name = order(&log, &path, new.len()).unwrap_or_else(|why| panic!("{why}: {log:#?}"));
            let digits = Path::new(name).file_name().unwrap().to_str().unwrap();
            let digits = digits.strip_prefix(".f.").and_then(|name| name.strip_suffix(".marker")).unwrap();
            assert!(digits.len() == 32 && digits.bytes().all(|byte| byte.is_ascii_hexdigit()), "{name}");
            assert!(names.insert(name.to_string()), "{name} has been there before");
            if !short.is_empty() && new.len() > 5 {
                assert!(log.iter().filter(|line| *line == "write new 1").count() == new.len(), "each byte has its call: {log:#?}");
            }
        }
    }
}

/// A clock, a count or the program's own number would leave most digits as they were.
#[test]
fn the_new_files_name_is_another_one_in_each_digit() {
    let (room, calls) = (Room::new("digits"), Calls::new("digits"));
    let mut seen = vec![BTreeSet::new(); 32];
    for _ in 0..40 {
        room.put("f", "nop\n");
        run(calls.on(&mut room.marker(["edit", "f", "1", "ret"]), &[("CALLS_DRY", "1")]), b"").is(0, "f: line 1 replaced\n", "");
        let log = calls.log();
        let name = log.iter().find_map(|line| line.strip_prefix("open new ")).unwrap();
        let digits = name.strip_suffix(".marker").and_then(|name| name.rsplit('.').next()).unwrap();
        assert_eq!(digits.len(), 32, "{name}");
        digits.bytes().zip(&mut seen).for_each(|(digit, seen)| _ = seen.insert(digit));
    }
    assert!(seen.iter().all(|digits| digits.len() >= 5), "{seen:?}");
}

#[test]
fn owner_and_attributes_are_given_before_the_flush_and_a_links_target_is_what_is_replaced() {
    let (room, calls) = (Room::new("order-more"), Calls::new("order-more"));
    fs::create_dir(room.path("d")).unwrap();
    room.put("d/f", "nop\nret\n");
    symlink("d/f", room.path("link")).unwrap();
    let is_root = is_root("owner_and_attributes_are_given_before_the_flush, of the owner");
    if is_root {
        chown(room.path("d/f"), Some(1234), Some(5678)).unwrap();
    }
    let has_attributes = set_attribute(&room.path("d/f"), "user.crew", b"north").is_ok();
    run(calls.on(&mut room.marker(["edit", "link", "2", "hlt"]), &[]), b"").is(0, "link: line 2 replaced\n", "");
    let log = calls.log();
    let path = room.0.canonicalize().unwrap().join("d/f");
    order(&log, &path, 8).unwrap_or_else(|why| panic!("{why}: {log:#?}"));
    assert_eq!(log.contains(&"fchown new 1234 5678".to_string()), is_root, "{log:#?}");
    assert_eq!(log.contains(&"fsetxattr new user.crew".to_string()), has_attributes, "{log:#?}");
    assert_eq!(room.get("d/f"), b"nop\nhlt\n");
}

/// What the test above asks for is not there in the calls of a program that leaves one out, or makes it at another time.
#[test]
fn a_call_left_out_or_out_of_order_is_seen() {
    let lines = [
        "open file 0 /d/f",
        "flock file",
        "read file 8",
        "read file 0",
        "open folder 0 /d",
        "open new 600 /d/.f.0.marker",
        "fchown new 1234 5678",
        "write new 8",
        "fchmod new 644",
        "fsync new",
        "close new",
        "rename /d/.f.0.marker /d/f",
        "fsync folder",
        "close folder",
        "close file",
    ];
    let judge = |lines: &[&str]| {
        let log: Vec<String> = lines.iter().map(|line| line.to_string()).collect();
        order(&log, Path::new("/d/f"), 8).map(str::to_string)
    };
    assert_eq!(judge(&lines), Ok("/d/.f.0.marker".to_string()));
    let place = |call: &str| lines.iter().position(|line| line.starts_with(call)).unwrap();
    for call in ["flock", "open new", "write", "fchmod", "fsync new", "close new", "rename", "fsync folder"] {
        let mut without = lines.to_vec();
        without.remove(place(call));
        assert!(judge(&without).is_err(), "`{call}` is left out");
    }
    // The first call made where the second stands.
    for (call, at) in [
        ("flock", "open new"),
        ("write", "fsync folder"),
        ("write", "close new"),
        ("fchmod", "close new"),
        ("fchown", "rename"),
        ("fsync new", "close new"),
        ("fsync new", "open new"),
        ("close new", "rename"),
        ("rename", "fsync new"),
        ("fsync folder", "rename"),
        ("fsync folder", "open new"),
        ("close file", "open folder"),
    ] {
        let mut moved = lines.to_vec();
        let line = moved.remove(place(call));
        moved.insert(place(at), line);
        assert!(judge(&moved).is_err(), "`{call}` is made at `{at}`: {moved:#?}");
    }
    for (old, new) in [
        ("open new 600 /d/.f.0.marker", "open new 666 /d/.f.0.marker"),
        ("write new 8", "write new 7"),
        ("write new 8", "write file 8"),
        ("rename /d/.f.0.marker /d/f", "rename /d/.f.0.marker /d/g"),
        ("open folder 0 /d", "open folder 0 /"),
        ("close folder", "unlink /d/f"),
    ] {
        assert!(judge(&lines.map(|line| if line == old { new } else { line })).is_err(), "{new}");
    }
}

#[test]
fn what_is_no_regular_file_is_not_even_opened() {
    let (room, calls) = (Room::new("not-opened"), Calls::new("not-opened"));
    fs::create_dir(room.path("d")).unwrap();
    assert!(Command::new("mkfifo").arg(room.path("p")).status().unwrap().success());
    let made = Command::new("mknod").arg(room.path("n")).args(["c", "1", "3"]).stderr(Stdio::null()).status();
    let has_device = made.is_ok_and(|status| status.success());
    // A file is, and is seen to be.
    room.put("f", "nop\n");
    run(calls.on(&mut room.marker(["check", "f"]), &[]), b"").is(0, "1 file checked, none refused\n", "");
    assert!(calls.log().iter().any(|line| line.starts_with("open file")), "{:#?}", calls.log());
    for name in ["d", "p", "n"].iter().filter(|name| **name != "n" || has_device) {
        for words in [&["edit", name, "1", "nop"][..], &["list", name], &["check", name]] {
            assert_ne!(run(calls.on(&mut room.marker(words), &[]), b"").status, Some(0));
            assert_eq!(calls.log(), [] as [&str; 0], "{words:?}");
        }
    }
}

/// Runs the program with a call that fails.
fn failing(room: &Room, calls: &Calls, words: &[&str], variables: &[(&str, &str)]) -> Said {
    run(calls.on(&mut room.marker(words), &[variables, &[("CALLS_DRY", "1")]].concat()), b"")
}

const EDIT: &[&str] = &["edit", "f", "2", "k equ 2"];

#[test]
fn a_call_that_fails_leaves_the_file_as_it_was_and_no_second_one() {
    let (room, calls) = (Room::new("fail"), Calls::new("fail"));
    let folder = room.0.canonicalize().unwrap();
    let made = format!("f: the new file cannot be made in {}", folder.display());
    room.put("f", "nop\nret\n");
    let before = fs::metadata(room.path("f")).unwrap();
    for (call, words) in [
        ("open file", "f"),
        ("flock file", "f: the file cannot be locked"),
        ("read file", "f"),
        ("open folder", &made),
        ("open new", &made),
        ("write new", "f"),
        ("fchmod new", "f"),
        ("fsync new", "f"),
        ("close new", "f"),
        ("rename", "f: the new file cannot take its place"),
    ] {
        for (errno, why) in [("5", "Input/output error"), ("28", "No space left on device"), ("122", "Disk quota exceeded")] {
            let said = failing(&room, &calls, EDIT, &[("CALLS_FAIL", call), ("CALLS_ERRNO", errno)]);
            said.is(2, "", &format!("marker: {words}: {why}\n"));
            room.has_only_f("nop\nret\n", call);
        }
    }
    // The disk runs full behind the third byte.
    let full = [("CALLS_FAIL", "write new"), ("CALLS_FROM", "3"), ("CALLS_ERRNO", "28"), ("CALLS_SHORT", "1")];
    failing(&room, &calls, EDIT, &full).is(2, "", "marker: f: No space left on device\n");
    assert_eq!(calls.log().iter().filter(|line| *line == "write new 1").count(), 3);
    room.has_only_f("nop\nret\n", "a disk that runs full");
    // The file cannot be looked at again.
    let again = [("CALLS_FAIL", "read file"), ("CALLS_FROM", "2")];
    failing(&room, &calls, EDIT, &again).is(2, "", "marker: f: Input/output error\n");
    assert!(calls.log().contains(&"close new".to_string()), "{:#?}", calls.log());
    room.has_only_f("nop\nret\n", "a second look that fails");
    // The read fails behind the first byte: that is no end.
    let read = [("CALLS_FAIL", "read file"), ("CALLS_FROM", "1"), ("CALLS_SHORT", "1")];
    failing(&room, &calls, EDIT, &read).is(2, "", "marker: f: Input/output error\n");
    room.has_only_f("nop\nret\n", "a read that fails later");
    failing(&room, &calls, &["check", "f"], &read).is(2, "0 files checked, none refused, 1 not read\n", "marker: f: Input/output error\n");
    failing(&room, &calls, &["list", "f"], &read).is(2, "", "marker: f: Input/output error\n");
    let after = fs::metadata(room.path("f")).unwrap();
    assert_eq!((before.ino(), before.ctime(), before.ctime_nsec()), (after.ino(), after.ctime(), after.ctime_nsec()));
}

#[test]
fn a_write_that_moves_nothing_is_a_failure() {
    let (room, calls) = (Room::new("nothing"), Calls::new("nothing"));
    room.put("f", "nop\nret\n");
    // Nothing is moved, and nothing is wrong. A program that tried again would never end.
    let said = failing(&room, &calls, EDIT, &[("CALLS_NOTHING", "1")]);
    assert_eq!((said.status, said.out.as_str()), (Some(2), ""));
    assert!(said.err.starts_with("marker: f: ") && said.err.lines().count() == 1, "{}", said.err);
    room.has_only_f("nop\nret\n", "a write that moves nothing");
}

#[test]
fn a_folder_that_cannot_be_flushed_is_said_though_the_line_is_replaced() {
    let (room, calls) = (Room::new("folder-flush"), Calls::new("folder-flush"));
    room.put("f", "nop\nret\n");
    failing(&room, &calls, EDIT, &[("CALLS_FAIL", "fsync folder")]).is(
        2,
        "",
        "marker: f: the line is replaced, but the folder could not be flushed (Input/output error): \
         if the power fails now, the edit may be lost\n",
    );
    room.has_only_f("nop\nk equ 2\n", "the folder's flush");
}

#[test]
fn a_call_that_is_only_interrupted_is_made_again() {
    let (room, calls) = (Room::new("interrupted"), Calls::new("interrupted"));
    let interrupted = "4";
    for call in ["open file", "read file", "open folder", "open new", "write new", "fchmod new", "fsync new", "fsync folder"] {
        room.put("f", "nop\nret\n");
        let said = failing(&room, &calls, EDIT, &[("CALLS_FAIL", call), ("CALLS_ERRNO", interrupted), ("CALLS_TIMES", "1")]);
        said.is(0, "f: line 2 replaced\n", "");
        room.has_only_f("nop\nk equ 2\n", call);
    }
}

#[test]
fn an_owner_that_cannot_be_kept_is_said_and_force_edits_without() {
    let (room, calls) = (Room::new("owner-fails"), Calls::new("owner-fails"));
    if !is_root("an_owner_that_cannot_be_kept_is_said_and_force_edits_without") {
        return;
    }
    room.put("f", "nop\nret\n");
    chown(room.path("f"), Some(1234), Some(5678)).unwrap();
    fs::set_permissions(room.path("f"), Permissions::from_mode(0o4750)).unwrap();
    let fail = [("CALLS_FAIL", "fchown new"), ("CALLS_ERRNO", "1")];
    failing(&room, &calls, EDIT, &fail).is(
        1,
        "",
        "f: user 1234 and group 5678, whose file it is, cannot be kept (Operation not permitted); nothing was edited\n\
         `marker edit --force` edits it all the same\n",
    );
    room.has_only_f("nop\nret\n", "the owner");
    let said = failing(&room, &calls, &["edit", "--force", "f", "2", "k equ 2"], &fail);
    said.is(0, "f: line 2 replaced\n", "f: not kept: user 1234, group 5678, mode 4750\n");
    room.has_only_f("nop\nk equ 2\n", "the owner, by force");
    // The new group has no more rights than all others had.
    let after = fs::metadata(room.path("f")).unwrap();
    assert_eq!((after.uid(), after.gid(), after.mode() & 0o7777), (0, 0, 0o700));
}

#[test]
fn an_attribute_that_cannot_be_kept_is_said_and_force_edits_without() {
    let (room, calls) = (Room::new("attribute-fails"), Calls::new("attribute-fails"));
    room.put("f", "nop\nret\n");
    if let Err(error) = set_attribute(&room.path("f"), "user.crew", b"north") {
        return notice(&format!("an_attribute_that_cannot_be_kept_is_said_and_force_edits_without: skipped: {error}"));
    }
    let fail = [("CALLS_FAIL", "fsetxattr new"), ("CALLS_ERRNO", "28")];
    failing(&room, &calls, EDIT, &fail).is(
        1,
        "",
        "f: an extended attribute of the file cannot be kept (No space left on device); nothing was edited\n\
         `marker edit --force` edits it all the same\n",
    );
    room.has_only_f("nop\nret\n", "the attribute");
    fs::set_permissions(room.path("f"), Permissions::from_mode(0o664)).unwrap();
    let said = failing(&room, &calls, &["edit", "--force", "f", "2", "k equ 2"], &fail);
    said.is(0, "f: line 2 replaced\n", "f: not kept: an extended attribute\n");
    room.has_only_f("nop\nk equ 2\n", "the attribute, by force");
    assert_eq!(fs::metadata(room.path("f")).unwrap().mode() & 0o7777, 0o664);
}

#[test]
fn an_access_control_list_that_cannot_be_kept_leaves_rights_to_the_owner_alone() {
    let (room, calls) = (Room::new("list-fails"), Calls::new("list-fails"));
    room.put("f", "nop\nret\n");
    // User 4321 may read though the group may not, and user 1234 may not though all others may.
    let list = access_list(&[(1, 6, !0), (2, 0, 1234), (2, 4, 4321), (4, 0, !0), (0x10, 4, !0), (0x20, 4, !0)]);
    if let Err(error) = set_attribute(&room.path("f"), "system.posix_acl_access", &list) {
        return notice(&format!("an_access_control_list_that_cannot_be_kept_..: skipped: {error}"));
    }
    set_attribute(&room.path("f"), "user.crew", b"north").unwrap();
    let fail = [("CALLS_FAIL", "fsetxattr new"), ("CALLS_ERRNO", "1")];
    failing(&room, &calls, EDIT, &fail).is(
        1,
        "",
        "f: its access control list cannot be kept (Operation not permitted); nothing was edited\n\
         `marker edit --force` edits it all the same\n",
    );
    room.has_only_f("nop\nret\n", "the list");
    let said = failing(&room, &calls, &["edit", "--force", "f", "2", "k equ 2"], &fail);
    said.is(0, "f: line 2 replaced\n", "f: not kept: the access control list, mode 644\n");
    assert_eq!(fs::metadata(room.path("f")).unwrap().mode() & 0o7777, 0o600);
}

#[test]
fn one_attribute_that_cannot_be_kept_costs_no_other() {
    let (room, calls) = (Room::new("one-fails"), Calls::new("one-fails"));
    room.put("f", "nop\nret\n");
    let names = ["user.a", "user.b", "user.c"];
    for name in names {
        if let Err(error) = set_attribute(&room.path("f"), name, b"kept") {
            return notice(&format!("one_attribute_that_cannot_be_kept_costs_no_other: skipped: {error}"));
        }
    }
    let fail = [("CALLS_FAIL", "fsetxattr new"), ("CALLS_ERRNO", "28"), ("CALLS_TIMES", "1")];
    let said = failing(&room, &calls, &["edit", "--force", "f", "2", "k equ 2"], &fail);
    said.is(0, "f: line 2 replaced\n", "f: not kept: an extended attribute\n");
    let kept = names.iter().filter(|name| attribute(&room.path("f"), name).is_ok_and(|value| value == b"kept"));
    assert_eq!(kept.count(), 2);
}

#[test]
fn a_new_file_that_cannot_be_removed_goes_with_the_next_edit() {
    let (room, calls) = (Room::new("unlink"), Calls::new("unlink"));
    room.put("f", "nop\nret\n");
    let both = [("CALLS_FAIL", "fsync new"), ("CALLS_FAIL_ALSO", "unlink")];
    failing(&room, &calls, EDIT, &both).is(2, "", "marker: f: Input/output error\n");
    assert_eq!((room.get("f"), room.names().len()), (b"nop\nret\n".to_vec(), 2));
    room.run(EDIT).is(0, "f: line 2 replaced\n", "");
    room.has_only_f("nop\nk equ 2\n", "the next edit");
}

#[test]
fn a_limit_on_the_length_of_files_leaves_the_file_as_it_was() {
    let room = Room::new("limit");
    let old = "; a\n".repeat(12_000);
    room.put("f", &old);
    // Whether or not whoever starts the program has told it to leave the system's signal alone.
    for first in ["trap '' XFSZ; ulimit -f 8", "ulimit -c 0; ulimit -f 8", "ulimit -c 0; ulimit -f 0"] {
        run(&mut room.below(first, ["edit", "f", "2", "nop"]), b"").is(2, "", "marker: f: File too large\n");
        room.has_only_f(&old, first);
    }
}

/// Runs an edit in a file system of its own in the memory, with these options; None where no such one can be made.
fn on_a_small_disk(room: &Room, options: &str) -> Option<Said> {
    fs::create_dir(room.path("small")).unwrap();
    let script = "mount -t tmpfs -o \"$1\" none small 2>/dev/null || exit 77
        cp old small/f && cd small && \"$0\" edit f 2 nop
        echo \"status $?\"; ls -A; cmp f ../old && echo same";
    let mut command = Command::new("unshare");
    command.args(["-m", "sh", "-c", script, common::MARKER, options]).current_dir(&room.0);
    let said = run(&mut command, b"");
    fs::remove_dir(room.path("small")).unwrap();
    // A system without the program `unshare` or the right to mount has nothing to say of its own.
    (said.status == Some(0) || said.out.starts_with("status")).then_some(said)
}

#[test]
fn a_full_disk_leaves_the_file_as_it_was() {
    if Command::new("unshare").arg("--version").output().is_err() {
        return notice("a_full_disk_leaves_the_file_as_it_was: skipped, since there is no program unshare");
    }
    let room = Room::new("full-disk");
    room.put("old", "; a\n".repeat(12_000));
    let folder = room.0.canonicalize().unwrap().join("small");
    // 48,000 bytes in 65,536: there is no room for a second file. Then room, but for no further name: the folder's and the file's are all.
    for (options, why) in [
        ("size=64k", "f: No space left on device".to_string()),
        ("size=1m,nr_inodes=2", format!("f: the new file cannot be made in {}: No space left on device", folder.display())),
    ] {
        match on_a_small_disk(&room, options) {
            Some(said) => said.is(0, "status 2\nf\nsame\n", &format!("marker: {why}\n")),
            None => return notice("a_full_disk_leaves_the_file_as_it_was: skipped, since no file system can be mounted"),
        }
    }
}
