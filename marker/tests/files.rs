//! What an edit does with files of all kinds: links, devices, modes, owners, attributes, folders.
mod common;
use common::{NOBODY, Room, access_list, attribute, ended, has_nobody, is_root, notice, run, set_attribute};
use std::ffi::OsString;
use std::fs::{self, Permissions};
use std::io::ErrorKind;
use std::os::unix::fs::{MetadataExt, PermissionsExt, chown, symlink};
use std::os::unix::net::UnixListener;
use std::os::unix::process::CommandExt;
use std::path::{Path, PathBuf};
use std::process::{Command, Stdio};
use std::time::Duration;

fn set_mode(path: &Path, mode: u32) {
    fs::set_permissions(path, Permissions::from_mode(mode)).unwrap();
}

fn mode(path: &Path) -> u32 {
    fs::metadata(path).unwrap().mode() & 0o7777
}

fn owner(path: &Path) -> (u32, u32) {
    let metadata = fs::metadata(path).unwrap();
    (metadata.uid(), metadata.gid())
}

#[test]
fn a_symbolic_link_stays_and_its_target_is_edited() {
    let room = Room::new("links");
    fs::create_dir_all(room.path("here/deep")).unwrap();
    fs::create_dir(room.path("there")).unwrap();
    room.put("here/f", "nop\n");
    room.put("there/g", "nop\n");
    let links: &[(&str, PathBuf, &str)] = &[
        ("here/relative", "f".into(), "here/f"),
        ("here/dotted", "./deep/../f".into(), "here/f"),
        ("here/absolute", room.path("here/f"), "here/f"),
        ("here/other", "../there/g".into(), "there/g"),
        ("here/chain", "chain2".into(), "there/g"),
        ("here/chain2", "deep/chain3".into(), "there/g"),
        ("here/deep/chain3", room.path("here/other"), "there/g"),
        ("folder", "there".into(), "there"),
    ];
    for (link, target, _) in links {
        symlink(target, room.path(link)).unwrap();
    }
    let all = [names_below(&room.path("here")), names_below(&room.path("there"))];
    let through = links.iter().map(|(link, _, file)| (*link, *file)).filter(|(link, _)| *link != "folder").chain([("folder/g", "there/g")]);
    for (number, (link, file)) in through.enumerate() {
        let other = if file == "here/f" { "there/g" } else { "here/f" };
        let (text, kept) = (format!("k equ {number}"), room.get(other));
        room.run(["edit", link, "1", &text]).is(0, &format!("{link}: line 1 replaced\n"), "");
        assert_eq!(room.get(file), format!("{text}\n").as_bytes(), "{link}");
        assert_eq!(room.get(other), kept, "{link}");
        assert!(fs::symlink_metadata(room.path(file)).unwrap().is_file(), "{link}");
        for (link, target, _) in links {
            assert_eq!(fs::read_link(room.path(link)).unwrap(), *target, "{link} is no longer the link that it was");
        }
        assert_eq!([names_below(&room.path("here")), names_below(&room.path("there"))], all, "{link}: a file is left behind");
    }
    // What is refused is called by the name that the person gave.
    room.run(["edit", "here/chain", "1", "1"]).is(
        1,
        "",
        "here/chain:1:1: an instruction is expected\n    1\n    ^\nhere/chain: not edited\n",
    );
    room.run(["check", "here/chain"]).is(0, "1 file checked, none refused\n", "");
}

fn names_below(folder: &Path) -> Vec<PathBuf> {
    let mut all = Vec::new();
    for name in common::names(folder) {
        let path = folder.join(name);
        if fs::symlink_metadata(&path).unwrap().is_dir() {
            all.extend(names_below(&path));
        }
        all.push(path);
    }
    all
}

#[test]
fn a_link_that_leads_nowhere_is_said() {
    let room = Room::new("nowhere");
    symlink("none", room.path("dangling")).unwrap();
    symlink("round2", room.path("round1")).unwrap();
    symlink("round1", room.path("round2")).unwrap();
    symlink("self", room.path("self")).unwrap();
    let before = room.names();
    for (link, why) in [
        ("dangling", "No such file or directory"),
        ("round1", "Too many levels of symbolic links"),
        ("self", "Too many levels of symbolic links"),
    ] {
        let said = format!("marker: {link}: {why}\n");
        room.run(["edit", link, "1", "nop"]).is(2, "", &said);
        room.run(["list", link]).is(2, "", &said);
        assert_eq!(room.names(), before);
    }
}

#[test]
fn a_file_with_further_hard_links_is_refused() {
    let room = Room::new("hard-links");
    room.put("f", "nop\n");
    symlink("f", room.path("link")).unwrap();
    for (links, names) in [(&["g"][..], "another name"), (&["h"], "2 other names"), (&["i", "j"], "4 other names")] {
        for link in links {
            fs::hard_link(room.path("f"), room.path(link)).unwrap();
        }
        let before = room.names();
        for name in ["f", "g", "link"] {
            let said = format!("{name}: the file has {names} (hard links), which an edit would not reach\n");
            room.run(["edit", name, "1", "ret"]).is(1, "", &said);
            room.run(["edit", "--force", name, "1", "ret"]).is(1, "", &said);
        }
        assert_eq!((room.get("f"), room.names()), (b"nop\n".to_vec(), before));
    }
    room.run(["check", "f", "g"]).is(0, "2 files checked, none refused\n", "");
}

/// The program says at once that this is no regular file: it opens nothing that could hang.
fn is_refused(room: &Room, name: &str, what: &str) {
    let before = room.names();
    for (words, status) in
        [(&["edit", name, "1", "nop"][..], 1), (&["edit", "--force", name, "1", "nop"], 1), (&["list", name], 2), (&["check", name], 2)]
    {
        let child = room.marker(words).stdin(Stdio::null()).stdout(Stdio::piped()).stderr(Stdio::piped()).spawn().unwrap();
        let who = if status == 2 { "marker: " } else { "" };
        let out = if words[0] == "check" { "0 files checked, none refused, 1 not read\n" } else { "" };
        ended(child, Duration::from_secs(20)).is(status, out, &format!("{who}{name}: this is {what}, and no regular file\n"));
        assert_eq!(room.names(), before);
    }
}

#[test]
fn a_folder_is_refused() {
    let room = Room::new("folder");
    fs::create_dir(room.path("d")).unwrap();
    symlink("d", room.path("link")).unwrap();
    for name in ["d", "d/", "link", "."] {
        is_refused(&room, name, "a folder");
    }
}

#[test]
fn a_fifo_is_refused_at_once() {
    let room = Room::new("fifo");
    assert!(Command::new("mkfifo").arg(room.path("p")).status().unwrap().success());
    symlink("p", room.path("link")).unwrap();
    is_refused(&room, "p", "a FIFO");
    is_refused(&room, "link", "a FIFO");
}

#[test]
fn a_socket_is_refused() {
    let room = Room::new("socket");
    // The name of a socket may have some hundred bytes at most, however deep the folder is.
    let short = PathBuf::from(format!("/proc/self/fd/{}/s", {
        use std::os::fd::IntoRawFd;
        fs::File::open(&room.0).unwrap().into_raw_fd()
    }));
    match UnixListener::bind(short) {
        Ok(_socket) => is_refused(&room, "s", "a socket"),
        Err(error) => notice(&format!("a_socket_is_refused: skipped, since none can be made: {error}")),
    }
}

#[test]
fn a_device_is_refused() {
    let room = Room::new("device");
    // A node of the test's own, of a device that takes everything: nothing real is handed to an edit.
    let made = Command::new("mknod").arg(room.path("n")).args(["c", "1", "3"]).stderr(Stdio::null()).status();
    if !made.is_ok_and(|status| status.success()) {
        return notice("a_device_is_refused: skipped, since none can be made");
    }
    let before = fs::metadata(room.path("n")).unwrap();
    is_refused(&room, "n", "a device");
    let after = fs::metadata(room.path("n")).unwrap();
    assert_eq!((before.ino(), before.mode(), before.rdev()), (after.ino(), after.mode(), after.rdev()));
}

#[test]
fn the_mode_is_kept_whatever_the_umask() {
    let room = Room::new("modes");
    // Without root, one that may not be written even by its owner is another matter.
    let is_root = is_root("the_mode_is_kept_whatever_the_umask, mode 0444");
    for umask in ["000", "022", "077", "777"] {
        for wanted in [0o600, 0o640, 0o666, 0o755, 0o700, 0o602, 0o4755, 0o2755, 0o1644, 0o6777, 0o444, 0o000] {
            if wanted & 0o600 != 0o600 && !is_root {
                continue;
            }
            room.put("f", "nop\n");
            set_mode(&room.path("f"), wanted);
            run(&mut room.below(&format!("umask {umask}"), ["edit", "f", "1", "ret"]), b"").is(0, "f: line 1 replaced\n", "");
            assert_eq!(format!("{:o}", mode(&room.path("f"))), format!("{wanted:o}"), "umask {umask}");
            set_mode(&room.path("f"), 0o600);
            room.has_only_f("ret\n", "modes");
            fs::remove_file(room.path("f")).unwrap();
        }
    }
}

#[test]
fn root_keeps_the_owner() {
    let room = Room::new("owner");
    if !is_root("root_keeps_the_owner") {
        return;
    }
    for (user, group, wanted) in [(1234, 5678, 0o640), (1234, 0, 0o600), (0, 5678, 0o664), (1234, 5678, 0o4755), (0, 5678, 0o2775)] {
        room.put("f", "nop\n");
        chown(room.path("f"), Some(user), Some(group)).unwrap();
        set_mode(&room.path("f"), wanted);
        room.run(["edit", "f", "1", "ret"]).is(0, "f: line 1 replaced\n", "");
        assert_eq!((owner(&room.path("f")), mode(&room.path("f"))), ((user, group), wanted));
        room.has_only_f("ret\n", "owner");
    }
    // In a folder whose files get its group, one of another group keeps it.
    chown(&room.0, None, Some(5678)).unwrap();
    set_mode(&room.0, 0o2755);
    fs::remove_file(room.path("f")).unwrap();
    room.put("f", "nop\n");
    assert_eq!(owner(&room.path("f")), (0, 5678));
    chown(room.path("f"), None, Some(0)).unwrap();
    room.run(["edit", "f", "1", "ret"]).is(0, "f: line 1 replaced\n", "");
    assert_eq!(owner(&room.path("f")), (0, 0));
}

/// The program run by a user that owns nothing, in a folder that everybody may write.
fn as_nobody(room: &Room, words: &[&str]) -> common::Said {
    run(room.marker(words).uid(NOBODY).gid(NOBODY), b"")
}

fn not_kept(user: u32, group: u32) -> String {
    format!(
        "f: user {user} and group {group}, whose file it is, cannot be kept (Operation not permitted); nothing was edited\n\
         `marker edit --force` edits it all the same\n"
    )
}

#[test]
fn another_owners_file_is_edited_by_force_alone_and_then_belongs_to_the_user() {
    let room = Room::new("force");
    if !has_nobody(&room, "another_owners_file_is_edited_by_force_alone_and_then_belongs_to_the_user") {
        return;
    }
    set_mode(&room.0, 0o777);
    // A file that gives its owner's rights to whoever runs it does not give the user's.
    // Where the group is another one, group and others may do what both might.
    for (user, group, before, after, lost) in [
        (0, 0, 0o666, 0o666, "user 0, group 0"),
        (1234, 5678, 0o606, 0o600, "user 1234, group 5678, mode 606"),
        (1234, 5678, 0o6777, 0o777, "user 1234, group 5678, mode 6777"),
        (1234, 5678, 0o676, 0o666, "user 1234, group 5678, mode 676"),
        (1234, NOBODY, 0o660, 0o660, "user 1234"),
        (1234, NOBODY, 0o4660, 0o660, "user 1234, mode 4660"),
        (NOBODY, 5678, 0o640, 0o600, "group 5678, mode 640"),
    ] {
        room.put("f", "nop\nret\n");
        chown(room.path("f"), Some(user), Some(group)).unwrap();
        set_mode(&room.path("f"), before);
        as_nobody(&room, &["edit", "f", "2", "hlt"]).is(1, "", &not_kept(user, group));
        room.has_only_f("nop\nret\n", "not by force");
        assert_eq!((owner(&room.path("f")), mode(&room.path("f"))), ((user, group), before));
        let said = as_nobody(&room, &["edit", "--force", "f", "2", "hlt"]);
        said.is(0, "f: line 2 replaced\n", &format!("f: not kept: {lost}\n"));
        room.has_only_f("nop\nhlt\n", "by force");
        assert_eq!((owner(&room.path("f")), mode(&room.path("f"))), ((NOBODY, NOBODY), after));
        fs::remove_file(room.path("f")).unwrap();
    }
    // Where the folder gives its own group to new files, the file's group is kept as far as that is permitted.
    chown(&room.0, None, Some(777)).unwrap();
    set_mode(&room.0, 0o2777);
    room.put("f", "nop\nret\n");
    chown(room.path("f"), Some(1234), Some(NOBODY)).unwrap();
    set_mode(&room.path("f"), 0o660);
    let said = as_nobody(&room, &["edit", "--force", "f", "2", "hlt"]);
    said.is(0, "f: line 2 replaced\n", "f: not kept: user 1234\n");
    assert_eq!((owner(&room.path("f")), mode(&room.path("f"))), ((NOBODY, NOBODY), 0o660));
}

#[test]
fn a_mode_that_the_system_does_not_give_is_said() {
    let room = Room::new("set-group");
    if !has_nobody(&room, "a_mode_that_the_system_does_not_give_is_said") {
        return;
    }
    // The folder gives its group to the new file; the set-group bit is not a stranger's to give.
    chown(&room.0, None, Some(5678)).unwrap();
    set_mode(&room.0, 0o2777);
    room.put("f", "nop\nret\n");
    chown(room.path("f"), Some(NOBODY), Some(5678)).unwrap();
    set_mode(&room.path("f"), 0o2664);
    let words = "f: mode 2664 cannot be kept (the system gives another one); nothing was edited\n\
                 `marker edit --force` edits it all the same\n";
    as_nobody(&room, &["edit", "f", "2", "hlt"]).is(1, "", words);
    room.has_only_f("nop\nret\n", "not by force");
    as_nobody(&room, &["edit", "--force", "f", "2", "hlt"]).is(0, "f: line 2 replaced\n", "f: not kept: mode 2664\n");
    room.has_only_f("nop\nhlt\n", "by force");
    assert_eq!((owner(&room.path("f")), mode(&room.path("f"))), ((NOBODY, 5678), 0o664));
}

#[test]
fn a_users_own_file_is_edited_without_force() {
    let room = Room::new("own");
    if !has_nobody(&room, "a_users_own_file_is_edited_without_force") {
        return;
    }
    set_mode(&room.0, 0o777);
    for wanted in [0o600, 0o640, 0o666, 0o755, 0o4755] {
        room.put("f", "nop\nret\n");
        chown(room.path("f"), Some(NOBODY), Some(NOBODY)).unwrap();
        set_mode(&room.path("f"), wanted);
        as_nobody(&room, &["edit", "f", "2", "hlt"]).is(0, "f: line 2 replaced\n", "");
        room.has_only_f("nop\nhlt\n", "own");
        assert_eq!((owner(&room.path("f")), mode(&room.path("f"))), ((NOBODY, NOBODY), wanted));
    }
}

#[test]
fn a_file_that_the_user_may_not_write_or_read_is_left_even_by_force() {
    let room = Room::new("may-not");
    // Without root, the tests' own user is the one that may not, and there are no other owners.
    let is_root = is_root("a_file_that_the_user_may_not_write_or_read_is_left_even_by_force, of other owners");
    if is_root && !has_nobody(&room, "a_file_that_the_user_may_not_write_or_read_is_left_even_by_force") {
        return;
    }
    set_mode(&room.0, 0o777);
    for (user, wanted) in [(0, 0o444), (0, 0o644), (0, 0o600), (NOBODY, 0o444), (NOBODY, 0o200), (NOBODY, 0o066), (0, 0o662)] {
        if user != NOBODY && !is_root {
            continue;
        }
        room.put("f", "nop\n");
        if is_root {
            chown(room.path("f"), Some(user), Some(user)).unwrap();
        }
        set_mode(&room.path("f"), wanted);
        let before = fs::metadata(room.path("f")).unwrap();
        for words in [&["edit", "f", "1", "ret"][..], &["edit", "--force", "f", "1", "ret"]] {
            let said = if is_root { as_nobody(&room, words) } else { room.run(words) };
            said.is(2, "", "marker: f: you may not read and write this file: Permission denied\n");
        }
        let after = fs::metadata(room.path("f")).unwrap();
        assert_eq!((before.ino(), before.mode(), before.ctime_nsec()), (after.ino(), after.mode(), after.ctime_nsec()));
        set_mode(&room.path("f"), 0o600);
        room.has_only_f("nop\n", "may not");
        fs::remove_file(room.path("f")).unwrap();
    }
}

#[test]
fn a_folder_that_the_user_may_not_write_or_enter_is_said() {
    let room = Room::new("shut");
    if !has_nobody(&room, "a_folder_that_the_user_may_not_write_or_enter_is_said") {
        return;
    }
    room.put("f", "nop\n");
    chown(room.path("f"), Some(NOBODY), Some(NOBODY)).unwrap();
    let folder = room.0.canonicalize().unwrap();
    let no = format!("marker: f: the new file cannot be made in {}: Permission denied\n", folder.display());
    // Not written; written but not read, so that it could not be flushed.
    for mode in [0o555, 0o333] {
        set_mode(&room.0, mode);
        as_nobody(&room, &["edit", "f", "1", "ret"]).is(2, "", &no);
        as_nobody(&room, &["edit", "--force", "f", "1", "ret"]).is(2, "", &no);
        room.has_only_f("nop\n", "shut");
    }
    set_mode(&room.0, 0o700);
    let path = room.path("f");
    let path = path.to_str().unwrap();
    let mut command = Command::new(common::MARKER);
    let said = run(command.args(["edit", path, "1", "ret"]).uid(NOBODY).gid(NOBODY).current_dir("/"), b"");
    said.is(2, "", &format!("marker: {path}: Permission denied\n"));
    room.has_only_f("nop\n", "shut");
}

#[test]
fn in_a_sticky_folder_another_owners_file_cannot_be_replaced_and_stays() {
    let room = Room::new("sticky");
    if !has_nobody(&room, "in_a_sticky_folder_another_owners_file_cannot_be_replaced_and_stays") {
        return;
    }
    room.put("f", "nop\n");
    set_mode(&room.path("f"), 0o666);
    set_mode(&room.0, 0o1777);
    let said = "marker: f: the new file cannot take its place: Operation not permitted\n";
    as_nobody(&room, &["edit", "--force", "f", "1", "ret"]).is(2, "", said);
    room.has_only_f("nop\n", "sticky");
    assert_eq!(owner(&room.path("f")), (0, 0));
}

/// Gives `f` an attribute; false where the file system has none.
fn has_attribute(room: &Room, test: &str, name: &str, value: &[u8]) -> bool {
    match set_attribute(&room.path("f"), name, value) {
        Ok(()) => true,
        Err(error) if matches!(error.kind(), ErrorKind::Unsupported | ErrorKind::PermissionDenied) => {
            notice(&format!("{test}: skipped, since `f` cannot have {name}: {error}"));
            false
        }
        Err(error) => panic!("{name}: {error}"),
    }
}

#[test]
fn extended_attributes_are_kept() {
    let room = Room::new("attributes");
    room.put("f", "nop\n");
    let long = vec![7; 2000];
    let wanted = [("user.crew", &b"north"[..]), ("user.empty", b""), ("user.long", &long), ("user.binary", b"\0\xff\n")];
    for (name, value) in wanted {
        if !has_attribute(&room, "extended_attributes_are_kept", name, value) {
            return;
        }
    }
    room.run(["edit", "f", "1", "ret"]).is(0, "f: line 1 replaced\n", "");
    room.has_only_f("ret\n", "attributes");
    for (name, value) in wanted {
        assert_eq!(attribute(&room.path("f"), name).unwrap(), value, "{name}");
    }
}

#[test]
fn an_access_control_list_is_kept() {
    let room = Room::new("access");
    room.put("f", "nop\n");
    set_mode(&room.path("f"), 0o600);
    // User 4321 may read and write; the group may not.
    let list = access_list(&[(1, 6, !0), (2, 6, 4321), (4, 0, !0), (0x10, 6, !0), (0x20, 0, !0)]);
    if !has_attribute(&room, "an_access_control_list_is_kept", "system.posix_acl_access", &list) {
        return;
    }
    assert_eq!(mode(&room.path("f")), 0o660, "the mask shows as the group's rights");
    room.run(["edit", "f", "1", "ret"]).is(0, "f: line 1 replaced\n", "");
    room.has_only_f("ret\n", "access");
    assert_eq!(attribute(&room.path("f"), "system.posix_acl_access").unwrap(), list);
    assert_eq!(mode(&room.path("f")), 0o660);
}

#[test]
fn a_folders_default_access_control_list_does_not_open_the_file_to_others() {
    let room = Room::new("default-access");
    room.put("f", "nop\n");
    set_mode(&room.path("f"), 0o640);
    let list = access_list(&[(1, 7, !0), (2, 7, 4321), (4, 7, !0), (0x10, 7, !0), (0x20, 7, !0)]);
    match set_attribute(&room.0, "system.posix_acl_default", &list) {
        Ok(()) => {}
        Err(error) => return notice(&format!("a folder's default access control list: skipped: {error}")),
    }
    room.run(["edit", "f", "1", "ret"]).is(0, "f: line 1 replaced\n", "");
    room.has_only_f("ret\n", "default access");
    assert_eq!(format!("{:o}", mode(&room.path("f"))), "640");
    let left = attribute(&room.path("f"), "system.posix_acl_access");
    assert!(left.is_err(), "the file had no list, and now has {left:?}");
}

#[test]
fn what_looks_like_a_new_file_of_another_edit_is_not_followed_or_lost() {
    let room = Room::new("alike");
    fs::create_dir(room.path("away")).unwrap();
    room.put("away/kept", "kept");
    let digits = "0123456789abcdef0123456789abcdef";
    room.put("f", "nop\n");
    // Left behind by an edit of `f` that was cut off: goes.
    room.put(format!(".f.{digits}.marker"), "half");
    // A link, a folder, another file's, and names that are only alike: stay.
    let link = format!(".f.{}.marker", digits.replace('0', "f"));
    symlink("away/kept", room.path(&link)).unwrap();
    let folder = format!(".f.{}.marker", digits.replace('0', "e"));
    fs::create_dir(room.path(&folder)).unwrap();
    let alike = [
        format!(".g.{digits}.marker"),
        format!("f.{digits}.marker"),
        format!(".f.{digits}"),
        format!(".f.{digits}0.marker"),
        format!(".f.{}.marker", &digits[1..]),
        format!(".f.{}.marker", digits.replace('a', "g")),
        format!(".f.g.{digits}.marker"),
        ".f.new".to_string(),
        "f.new".to_string(),
        "f~".to_string(),
    ];
    for name in &alike {
        room.put(name, "other");
    }
    let mut wanted: Vec<OsString> = alike.iter().cloned().chain([link, folder, "f".into(), "away".into()]).map(OsString::from).collect();
    wanted.sort();
    room.run(["edit", "f", "1", "ret"]).is(0, "f: line 1 replaced\n", "");
    assert_eq!(room.names(), wanted);
    assert_eq!((room.get("f"), room.get("away/kept")), (b"ret\n".to_vec(), b"kept".to_vec()));
    assert!(alike.iter().all(|name| room.get(name) == b"other"));
}

#[test]
fn a_long_name_is_no_reason_to_take_another_files_new_file_away() {
    let room = Room::new("long-names");
    // The new file of a name of 201 bytes or more has the first 200 of them; the name of those 200 is another file's.
    let (short, long) = ("n".repeat(200), "n".repeat(255));
    let digits = "0123456789abcdef0123456789abcdef";
    let others = format!(".{short}.{digits}.marker");
    room.put(&short, "nop\n");
    room.put(&long, "nop\n");
    room.put(&others, "being written");
    for name in [&short, &long] {
        room.run(["edit", name, "1", "ret"]).is(0, &format!("{name}: line 1 replaced\n"), "");
        assert_eq!(room.get(&others), b"being written");
    }
    assert_eq!(room.names().len(), 3);
}
