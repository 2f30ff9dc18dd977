//! Edits that are killed, that run beside each other, and beside programs that know nothing of them: the file is always whole, and no edit
//! that was said to be done is lost.
mod common;
use common::{Calls, Room, Said, ended, notice, run};
use std::collections::BTreeSet;
use std::fs::{self, File};
use std::hash::{BuildHasher, Hasher};
use std::os::unix::fs::{PermissionsExt, symlink};
use std::process::{Child, Stdio};
use std::sync::atomic::{AtomicBool, AtomicUsize, Ordering};
use std::thread;
use std::time::{Duration, Instant};

const KILL: Option<i32> = Some(9);

/// Nothing takes so long, however busy the machine is; a wait for a lock is given up after 10 seconds.
const SOON: Duration = Duration::from_secs(60);

const HELD: &str = "marker: f: another program has held the file for 10 seconds; nothing was edited; try again when it has ended\n";

fn random(below: u128) -> u128 {
    std::collections::hash_map::RandomState::new().build_hasher().finish() as u128 % below
}

/// Starts the program with the shim below it.
fn start(room: &Room, calls: &Calls, words: &[&str], variables: &[(&str, &str)]) -> Child {
    let mut command = room.marker(words);
    calls.on(&mut command, variables).stdin(Stdio::null()).stdout(Stdio::piped()).stderr(Stdio::piped()).spawn().unwrap()
}

/// What a killed program has handed to the system is there whether or not it is flushed; so the many edits here need no flush.
const DRY: (&str, &str) = ("CALLS_DRY", "1");

fn killed(mut child: Child) -> Said {
    child.kill().unwrap();
    ended(child, SOON)
}

/// The next edit, of the last line: nothing holds it up, it keeps the lines above, and leaves nothing beside the file.
#[track_caller]
fn next_edit_works(room: &Room, calls: &Calls, lines: usize) {
    let before = String::from_utf8(room.get("f")).unwrap();
    let text = format!("n equ {}", random(1_000_000));
    let said = run(calls.on(&mut room.marker(["edit", "f", &lines.to_string(), &text]), &[DRY]), b"");
    said.is(0, &format!("f: line {lines} replaced\n"), "");
    let above = before.rsplit_once('\n').unwrap().0;
    room.has_only_f(format!("{above}\n{text}"), "the next edit");
}

#[test]
fn a_kill_at_any_call_leaves_the_old_file_or_the_new_one() {
    let (room, calls) = (Room::new("each-call"), Calls::new("each-call"));
    let (old, new) = ("nop\nret\nn equ 0", "nop\nhlt\nn equ 0");
    room.put("f", old);
    run(calls.on(&mut room.marker(["edit", "f", "2", "hlt"]), &[]), b"").is(0, "f: line 2 replaced\n", "");
    let log = calls.log();
    let call = |line: &String| {
        let words: Vec<&str> = line.split(' ').collect();
        if words[0] == "rename" { "rename".to_string() } else { words[..2].join(" ") }
    };
    let all: Vec<String> = log.iter().map(call).collect();
    let renamed = all.iter().position(|call| call == "rename").unwrap();
    let mut seen = BTreeSet::new();
    for (n, call) in all.iter().enumerate().filter(|(_, call)| seen.insert(call.to_string())) {
        room.put("f", old);
        let mut child = start(&room, &calls, &["edit", "f", "2", "hlt"], &[("CALLS_PAUSE", call)]);
        calls.wait_for_pause(&mut child);
        let said = killed(child);
        calls.go_on();
        assert_eq!((said.signal, said.out.as_str(), said.err.as_str()), (KILL, "", ""), "{call}");
        let is_made = all[..n].contains(&"open new".to_string()) && n <= renamed;
        assert!(room.get("f") == if n > renamed { new } else { old }.as_bytes(), "{call}");
        assert_eq!(room.names().len(), 1 + usize::from(is_made), "{call}");
        next_edit_works(&room, &calls, 3);
    }
    for call in ["flock file", "read file", "open new", "write new", "fchmod new", "fsync new", "close new", "rename", "fsync folder"] {
        assert!(seen.contains(call), "{call} was not killed at: {seen:?}");
    }
}

#[test]
fn a_hundred_kills_at_random_moments_leave_the_old_file_or_the_new_one() {
    let (room, calls) = (Room::new("hundred"), Calls::new("hundred"));
    let above = "; a comment\n".repeat(5_400);
    let lines = 5_402;
    room.put("f", format!("{above}k equ 0\nn equ 0"));
    // Each call comes later, so that there is a middle to land in.
    let slow = [("CALLS_SLOW", "1500"), DRY];
    let began = Instant::now();
    run(calls.on(&mut room.marker(["edit", "f", "5401", "k equ 1"]), &slow), b"").is(0, "f: line 5401 replaced\n", "");
    let mut whole = began.elapsed().as_micros();
    let (mut landed, mut begun, mut middle, mut done) = (0, 0, 0, 0);
    while landed < 100 {
        begun += 1;
        assert!(begun < 3_000, "only {landed} of {begun} kills came while the program ran");
        let old = String::from_utf8(room.get("f")).unwrap();
        let line = old.lines().nth(5_400).unwrap();
        let text = format!("k equ {begun}00");
        let new = old.replace(&format!("\n{line}\n"), &format!("\n{text}\n"));
        let child = start(&room, &calls, &["edit", "f", "5401", &text], &slow);
        thread::sleep(Duration::from_micros(random(whole) as u64));
        let said = killed(child);
        let now = String::from_utf8(room.get("f")).unwrap();
        assert!(now == old || now == new, "the file is torn: {} bytes", now.len());
        if said.signal != KILL {
            said.is(0, "f: line 5401 replaced\n", "");
            assert!(now == new, "an edit that was done is lost");
            // Too late: the machine is less busy than it was.
            whole = (whole * 9 / 10).max(1_000);
            continue;
        }
        whole += whole / 40;
        landed += 1;
        done += usize::from(now == new);
        middle += usize::from(now == old && room.names().len() > 1);
        assert!(room.names().len() <= 2, "{:?}", room.names());
        next_edit_works(&room, &calls, lines);
    }
    assert!(middle > 0, "no kill came while the new file was there");
    let before = landed - middle - done;
    notice(&format!("{landed} kills of {begun} edits: {before} before the new file, {middle} beside it, {done} behind the rename"));
}

/// Eight editors at once, each of its own line, so many times: each edit that is said to be done is there, at once and at the end.
/// Gives how many edits were done, and how many were not; those said why.
fn eight_editors(room: &Room, name: &str, times: usize, meanwhile: impl Fn() + Sync) -> (usize, usize) {
    let rows = |values: &[usize]| values.iter().enumerate().map(|(n, value)| format!("k{n} equ {value}\n")).collect::<String>();
    room.put("f", rows(&[0; 8]));
    let (is_over, not_done) = (AtomicBool::new(false), AtomicUsize::new(0));
    let lines = || -> Vec<String> {
        // Whoever reads finds all lines whole.
        let text = String::from_utf8(room.get("f")).unwrap();
        let lines: Vec<String> = text.lines().map(str::to_string).collect();
        let is_whole =
            |(n, line): (usize, &String)| line.strip_prefix(&format!("k{n} equ ")).is_some_and(|value| value.parse::<usize>().is_ok());
        assert!(text.ends_with('\n') && lines.len() == 8 && lines.iter().enumerate().all(is_whole), "the file is torn: {text:?}");
        lines
    };
    let editor = |n: usize| {
        let (mut last, mut done) = (0, 0);
        let calls = Calls::new(&format!("{name}-{n}"));
        for value in 1..=times {
            let words = ["edit", "f", &(n + 1).to_string(), &format!("k{n} equ {value}")];
            let mut said = run(calls.on(&mut room.marker(words), &[DRY]), b"");
            // On a machine that stands still for so long: the edit is not done, and is tried again.
            while said.err == HELD {
                notice("an edit has waited for 10 seconds");
                said = run(calls.on(&mut room.marker(words), &[DRY]), b"");
            }
            if said.status == Some(0) {
                said.is(0, &format!("f: line {} replaced\n", n + 1), "");
                (last, done) = (value, done + 1);
            } else {
                assert_eq!((said.status, said.signal, said.out.as_str()), (Some(2), None, ""), "{}", said.err);
                assert!(said.err.starts_with("marker: f: ") && said.err.ends_with('\n') && said.err.lines().count() == 1, "{}", said.err);
                not_done.fetch_add(1, Ordering::Relaxed);
            }
            assert_eq!(lines()[n], format!("k{n} equ {last}"), "an edit is lost: {}", said.err);
        }
        (last, done)
    };
    let ends: Vec<(usize, usize)> = thread::scope(|scope| {
        let others = [
            scope.spawn(|| {
                while !is_over.load(Ordering::Relaxed) {
                    meanwhile()
                }
            }),
            scope.spawn(|| {
                while !is_over.load(Ordering::Relaxed) {
                    lines();
                    thread::sleep(Duration::from_millis(1));
                }
            }),
        ];
        let editors: Vec<_> = (0..8).map(|n| scope.spawn(move || editor(n))).collect();
        let ends: Vec<_> = editors.into_iter().map(|editor| editor.join()).collect();
        is_over.store(true, Ordering::Relaxed);
        others.into_iter().for_each(|other| other.join().unwrap());
        ends.into_iter().map(Result::unwrap).collect()
    });
    let values: Vec<usize> = ends.iter().map(|end| end.0).collect();
    assert_eq!(String::from_utf8(room.get("f")).unwrap(), rows(&values));
    (ends.iter().map(|end| end.1).sum(), not_done.into_inner())
}

#[test]
fn eight_editors_at_once_lose_nothing() {
    let room = Room::new("eight");
    let done = eight_editors(&room, "eight", 25, || thread::sleep(Duration::from_millis(1)));
    assert_eq!(done, (200, 0), "all edits are done");
    assert_eq!(room.names(), ["f"]);
}

#[test]
fn eight_editors_whose_hidden_files_are_removed_lose_nothing_and_say_so() {
    let room = Room::new("eight-removed");
    let removed = AtomicUsize::new(0);
    let (done, not_done) = eight_editors(&room, "removed-eight", 25, || {
        for name in room.names().into_iter().filter(|name| name.to_string_lossy().starts_with('.')) {
            removed.fetch_add(usize::from(fs::remove_file(room.path(name)).is_ok()), Ordering::Relaxed);
        }
        thread::sleep(Duration::from_millis(2));
    });
    assert_eq!(done + not_done, 200);
    notice(&format!("{} hidden files removed: {done} edits done, {not_done} said why not", removed.into_inner()));
    next_edit_works_in(&room);
}

fn next_edit_works_in(room: &Room) {
    room.run(["edit", "f", "1", "nop"]).is(0, "f: line 1 replaced\n", "");
    assert!(room.get("f").starts_with(b"nop\n"));
    assert_eq!(room.names(), ["f"]);
}

#[test]
fn eight_editors_that_are_killed_at_random_moments_lose_nothing() {
    let room = Room::new("eight-killed");
    room.put("f", (0..8).map(|n| format!("k{n} equ 0\n")).collect::<String>());
    let line = |n: usize| String::from_utf8(room.get("f")).unwrap().lines().nth(n).unwrap().to_string();
    let (landed, begun) = (AtomicUsize::new(0), AtomicUsize::new(0));
    let editor = |n: usize| {
        let (mut last, mut kills, mut delay) = (format!("k{n} equ 0"), 0, 20_000);
        let calls = Calls::new(&format!("eight-killed-{n}"));
        for value in 1.. {
            if kills == 12 {
                break;
            }
            assert!(value < 1_000, "only {kills} of {value} kills came while the program ran");
            let new = format!("k{n} equ {value}");
            let child = start(&room, &calls, &["edit", "f", &(n + 1).to_string(), &new], &[DRY]);
            thread::sleep(Duration::from_micros(random(delay) as u64));
            let said = killed(child);
            let now = line(n);
            begun.fetch_add(1, Ordering::Relaxed);
            if said.signal == KILL {
                kills += 1;
                delay += delay / 10;
                assert!(now == last || now == new, "{now}, and neither {last} nor {new}");
            } else {
                said.is(0, &format!("f: line {} replaced\n", n + 1), "");
                delay -= delay / 20;
                assert_eq!(now, new, "an edit is lost");
            }
            last = now;
        }
        landed.fetch_add(kills, Ordering::Relaxed);
        last
    };
    let editor = &editor;
    let lasts: Vec<String> = thread::scope(|scope| {
        let editors: Vec<_> = (0..8).map(|n| scope.spawn(move || editor(n))).collect();
        editors.into_iter().map(|editor| editor.join().unwrap()).collect()
    });
    assert_eq!(String::from_utf8(room.get("f")).unwrap().lines().collect::<Vec<_>>(), lasts);
    notice(&format!("{} kills of {} edits, eight at once", landed.into_inner(), begun.into_inner()));
    next_edit_works_in(&room);
}

#[test]
fn a_new_file_that_somebody_removes_is_said_and_the_next_edit_works() {
    let (room, calls) = (Room::new("removed"), Calls::new("removed"));
    for call in ["write new", "fsync new", "close new", "rename"] {
        room.put("f", "nop\nret\nn equ 0");
        let mut child = start(&room, &calls, &["edit", "f", "2", "hlt"], &[("CALLS_PAUSE", call)]);
        calls.wait_for_pause(&mut child);
        let hidden: Vec<_> = room.names().into_iter().filter(|name| name != "f").collect();
        assert_eq!(hidden.len(), 1, "{call}");
        fs::remove_file(room.path(&hidden[0])).unwrap();
        calls.go_on();
        ended(child, SOON).is(2, "", "marker: f: the new file cannot take its place: No such file or directory\n");
        room.has_only_f("nop\nret\nn equ 0", call);
        next_edit_works(&room, &calls, 3);
    }
}

/// Waits until the program has asked for the lock a second time: it waits for it then.
fn wait_for_lock(calls: &Calls, child: &mut Child) {
    let began = Instant::now();
    while calls.log().iter().filter(|line| *line == "flock file").count() < 2 {
        assert!(child.try_wait().unwrap().is_none(), "the program has not waited: {:#?}", calls.log());
        assert!(began.elapsed() < SOON, "the program does not ask for the lock: {:#?}", calls.log());
        thread::sleep(Duration::from_millis(1));
    }
}

#[test]
fn an_edit_waits_for_the_lock_and_reads_the_file_as_it_then_is() {
    let (room, calls) = (Room::new("wait"), Calls::new("wait"));
    room.put("f", "nop\nret\n");
    let held = File::open(room.path("f")).unwrap();
    held.lock().unwrap();
    let mut child = start(&room, &calls, &["edit", "f", "2", "hlt"], &[]);
    wait_for_lock(&calls, &mut child);
    room.put("f", "cli\nret\n; more\n");
    held.unlock().unwrap();
    ended(child, SOON).is(0, "f: line 2 replaced\n", "");
    room.has_only_f("cli\nhlt\n; more\n", "changed in place");

    // The file that it waits for is no longer the one of that name.
    let held = File::open(room.path("f")).unwrap();
    held.lock().unwrap();
    let mut child = start(&room, &calls, &["edit", "f", "2", "sti"], &[]);
    wait_for_lock(&calls, &mut child);
    room.put("g", "std\nret\n");
    fs::rename(room.path("g"), room.path("f")).unwrap();
    held.unlock().unwrap();
    ended(child, SOON).is(0, "f: line 2 replaced\n", "");
    room.has_only_f("std\nsti\n", "another file in its place");

    // There is none left: nothing is made.
    let held = File::open(room.path("f")).unwrap();
    held.lock().unwrap();
    let mut child = start(&room, &calls, &["edit", "f", "2", "nop"], &[]);
    wait_for_lock(&calls, &mut child);
    fs::remove_file(room.path("f")).unwrap();
    held.unlock().unwrap();
    ended(child, SOON).is(2, "", "marker: f: No such file or directory\n");
    assert!(room.names().is_empty());
}

#[test]
fn an_edit_waits_for_another_one_of_the_same_file_under_another_name() {
    let (room, calls, other) = (Room::new("names"), Calls::new("names-1"), Calls::new("names-2"));
    room.put("f", "nop\nret\n");
    symlink("f", room.path("link")).unwrap();
    let mut first = start(&room, &calls, &["edit", "link", "1", "cli"], &[("CALLS_PAUSE", "rename")]);
    calls.wait_for_pause(&mut first);
    let mut second = start(&room, &other, &["edit", "f", "2", "hlt"], &[]);
    wait_for_lock(&other, &mut second);
    calls.go_on();
    ended(first, SOON).is(0, "link: line 1 replaced\n", "");
    ended(second, SOON).is(0, "f: line 2 replaced\n", "");
    assert_eq!(room.get("f"), b"cli\nhlt\n");
    assert_eq!(room.names(), ["f", "link"]);
}

#[test]
fn an_edit_gives_up_after_ten_seconds_and_says_so() {
    let room = Room::new("give-up");
    room.put("f", "nop\nret\n");
    let held = File::open(room.path("f")).unwrap();
    held.lock().unwrap();
    let began = Instant::now();
    room.run(["edit", "f", "2", "hlt"]).is(2, "", HELD);
    assert!(began.elapsed() >= Duration::from_secs(10), "it gave up after {:?}", began.elapsed());
    room.has_only_f("nop\nret\n", "given up");
    // Reading takes no lock.
    room.run(["check", "f"]).is(0, "1 file checked, none refused\n", "");
    drop(held);
    room.run(["edit", "f", "2", "hlt"]).is(0, "f: line 2 replaced\n", "");
    room.has_only_f("nop\nhlt\n", "the next edit");
}

#[test]
fn when_the_locks_holder_is_killed_the_next_edit_goes_on() {
    let (room, calls, other) = (Room::new("holder"), Calls::new("holder-1"), Calls::new("holder-2"));
    for call in ["read file", "write new", "rename", "fsync folder"] {
        room.put("f", "nop\nret\nn equ 0");
        let mut first = start(&room, &calls, &["edit", "f", "1", "cli"], &[("CALLS_PAUSE", call)]);
        calls.wait_for_pause(&mut first);
        let mut second = start(&room, &other, &["edit", "f", "2", "hlt"], &[]);
        // Behind the rename nobody holds the new file.
        let is_renamed = call == "fsync folder";
        if !is_renamed {
            wait_for_lock(&other, &mut second);
        }
        assert_eq!(killed(first).signal, KILL);
        calls.go_on();
        ended(second, SOON).is(0, "f: line 2 replaced\n", "");
        room.has_only_f(if is_renamed { "cli\nhlt\nn equ 0" } else { "nop\nhlt\nn equ 0" }, call);
    }
}

#[test]
fn what_another_program_does_to_the_file_meanwhile_is_seen_and_kept() {
    let (room, calls) = (Room::new("meanwhile"), Calls::new("meanwhile"));
    let changed = "f: another program has changed the file meanwhile; nothing was edited; try again";
    let f = room.path("f");
    let (old, other) = ("nop\nret\n", "cli\nsti\n");
    type Change<'a> = (&'a str, &'a dyn Fn(), Option<&'a str>, &'a str);
    let changes: [Change; 6] = [
        ("written in place, as long as before", &|| room.put("f", other), Some(other), changed),
        ("longer", &|| room.put("f", "nop\nret\n; more\n"), Some("nop\nret\n; more\n"), changed),
        (
            "another file in its place",
            &|| {
                room.put("g", other);
                fs::rename(room.path("g"), &f).unwrap();
            },
            Some(other),
            changed,
        ),
        (
            "another file with the same bytes in its place",
            &|| {
                room.put("g", old);
                fs::rename(room.path("g"), &f).unwrap();
            },
            Some(old),
            changed,
        ),
        ("another mode", &|| fs::set_permissions(&f, fs::Permissions::from_mode(0o600)).unwrap(), Some(old), changed),
        ("removed", &|| fs::remove_file(&f).unwrap(), None, "f: No such file or directory"),
    ];
    for call in ["open new", "write new", "close new"] {
        for (what, change, kept, words) in &changes {
            room.put("f", old);
            let mut child = start(&room, &calls, &["edit", "f", "2", "hlt"], &[("CALLS_PAUSE", call)]);
            calls.wait_for_pause(&mut child);
            change();
            calls.go_on();
            ended(child, SOON).is(2, "", &format!("marker: {words}\n"));
            match kept {
                Some(bytes) => room.has_only_f(bytes, what),
                None => assert!(room.names().is_empty(), "{what}"),
            }
        }
    }
}

/// Two folders with a file each, and a name that leads to the first one's, through a link to the folder or to the file.
fn two_files(room: &Room, link: &str) {
    for folder in ["v1", "v2"] {
        fs::create_dir(room.path(folder)).unwrap();
        room.put(format!("{folder}/f"), "nop\nret\n");
    }
    turn(room, link, "v1");
}

fn turn(room: &Room, link: &str, folder: &str) {
    let _ = fs::remove_file(room.path("turned"));
    symlink(if link == "cur" { folder.to_string() } else { format!("{folder}/f") }, room.path("turned")).unwrap();
    fs::rename(room.path("turned"), room.path(link)).unwrap();
}

#[test]
fn a_link_that_is_turned_while_an_edit_waits_leads_to_the_file_that_is_edited() {
    for (link, name) in [("cur", "cur/f"), ("link", "link")] {
        let (room, calls) = (Room::new(&format!("turned-{link}")), Calls::new(&format!("turned-{link}")));
        two_files(&room, link);
        let held = File::open(room.path("v1/f")).unwrap();
        held.lock().unwrap();
        let mut child = start(&room, &calls, &["edit", name, "2", "hlt"], &[]);
        wait_for_lock(&calls, &mut child);
        turn(&room, link, "v2");
        drop(held);
        ended(child, SOON).is(0, &format!("{name}: line 2 replaced\n"), "");
        assert_eq!((room.get("v1/f"), room.get(name)), (b"nop\nret\n".to_vec(), b"nop\nhlt\n".to_vec()));
    }
}

#[test]
fn a_link_that_is_turned_during_an_edit_is_seen() {
    for (link, name) in [("cur", "cur/f"), ("link", "link")] {
        let (room, calls) = (Room::new(&format!("turns-{link}")), Calls::new(&format!("turns-{link}")));
        two_files(&room, link);
        let mut child = start(&room, &calls, &["edit", name, "2", "hlt"], &[("CALLS_PAUSE", "close new")]);
        calls.wait_for_pause(&mut child);
        turn(&room, link, "v2");
        calls.go_on();
        let words = format!("marker: {name}: another program has changed the file meanwhile; nothing was edited; try again\n");
        ended(child, SOON).is(2, "", &words);
        assert_eq!((room.get("v1/f"), room.get("v2/f")), (b"nop\nret\n".to_vec(), b"nop\nret\n".to_vec()));
        assert_eq!((common::names(&room.path("v1")).len(), common::names(&room.path("v2")).len()), (1, 1));
    }
}

#[test]
fn a_new_file_in_use_is_not_taken_for_one_left_behind() {
    let (room, calls, other) = (Room::new("in-use"), Calls::new("in-use-1"), Calls::new("in-use-2"));
    room.put("f", "nop\nret\n");
    let mut first = start(&room, &calls, &["edit", "f", "1", "cli"], &[("CALLS_PAUSE", "open folder")]);
    calls.wait_for_pause(&mut first);
    // Another program puts a new file in the place of the one that is held, and that one is edited too.
    room.put("g", "sti\nret\n");
    fs::rename(room.path("g"), room.path("f")).unwrap();
    let mut second = start(&room, &other, &["edit", "f", "2", "hlt"], &[("CALLS_PAUSE", "rename")]);
    other.wait_for_pause(&mut second);
    calls.go_on();
    let words = "marker: f: another program has changed the file meanwhile; nothing was edited; try again\n";
    ended(first, SOON).is(2, "", words);
    other.go_on();
    ended(second, SOON).is(0, "f: line 2 replaced\n", "");
    room.has_only_f("sti\nhlt\n", "the second edit");
}

#[test]
fn a_file_that_is_replaced_without_end_is_said() {
    let (room, calls) = (Room::new("again"), Calls::new("again"));
    room.put("f", "nop\nret\n");
    run(calls.on(&mut room.marker(["edit", "f", "2", "hlt"]), &[("CALLS_OTHER", "1")]), b"").is(
        2,
        "",
        "marker: f: another file is put in its place again and again; nothing was edited; try again\n",
    );
    room.has_only_f("nop\nret\n", "replaced without end");
    assert!(calls.log().iter().filter(|line| *line == "flock file").count() > 100, "it has been tried again");
}

#[test]
fn a_change_that_the_clock_is_too_coarse_for_is_seen() {
    let (room, calls) = (Room::new("coarse"), Calls::new("coarse"));
    let variables = [("CALLS_PAUSE", "close new"), ("CALLS_COARSE", "1")];
    let (f, old) = (room.path("f"), "nop\nret\n");
    let changes: [(&str, &dyn Fn()); 3] = [
        ("as long as before", &|| room.put("f", "cli\nsti\n")),
        ("another mode", &|| fs::set_permissions(&f, fs::Permissions::from_mode(0o600)).unwrap()),
        ("a further name", &|| fs::hard_link(&f, room.path("g")).unwrap()),
    ];
    for (what, change) in changes {
        room.put("f", old);
        fs::set_permissions(&f, fs::Permissions::from_mode(0o644)).unwrap();
        let mut child = start(&room, &calls, &["edit", "f", "2", "hlt"], &variables);
        calls.wait_for_pause(&mut child);
        change();
        let wanted = (room.get("f"), fs::metadata(&f).unwrap().permissions());
        calls.go_on();
        ended(child, SOON).is(2, "", "marker: f: another program has changed the file meanwhile; nothing was edited; try again\n");
        let _ = fs::remove_file(room.path("g"));
        room.has_only_f(&wanted.0, what);
        assert_eq!(fs::metadata(&f).unwrap().permissions(), wanted.1, "{what}");
    }
    // The times are the same by the shim: written anew with the same bytes, the file is the same, so what is seen above is not the time.
    room.put("f", old);
    let mut child = start(&room, &calls, &["edit", "f", "2", "hlt"], &variables);
    calls.wait_for_pause(&mut child);
    room.put("f", old);
    calls.go_on();
    ended(child, SOON).is(0, "f: line 2 replaced\n", "");
}

#[test]
fn a_link_in_the_files_place_is_not_followed_and_not_replaced() {
    let (room, calls) = (Room::new("swapped"), Calls::new("swapped"));
    room.put("f", "nop\nret\n");
    room.put("secret", "secret");
    let mut child = start(&room, &calls, &["edit", "f", "2", "hlt"], &[("CALLS_PAUSE", "close new")]);
    calls.wait_for_pause(&mut child);
    fs::remove_file(room.path("f")).unwrap();
    symlink("secret", room.path("f")).unwrap();
    calls.go_on();
    ended(child, SOON).is(2, "", "marker: f: another program has changed the file meanwhile; nothing was edited; try again\n");
    assert_eq!(room.get("secret"), b"secret");
    assert_eq!(fs::read_link(room.path("f")).unwrap().to_str(), Some("secret"));
    assert_eq!(room.names(), ["f", "secret"]);
}

#[test]
fn edits_of_two_files_in_a_folder_do_not_wait_for_each_other_or_remove_each_others_files() {
    let (room, calls) = (Room::new("two-files"), Calls::new("two-files"));
    room.put("f", "nop\n");
    room.put("f.f", "nop\n");
    let mut first = start(&room, &calls, &["edit", "f", "1", "cli"], &[("CALLS_PAUSE", "rename")]);
    calls.wait_for_pause(&mut first);
    room.run(["edit", "f.f", "1", "hlt"]).is(0, "f.f: line 1 replaced\n", "");
    assert_eq!(room.names().len(), 3, "the first edit's new file is there");
    calls.go_on();
    ended(first, SOON).is(0, "f: line 1 replaced\n", "");
    assert_eq!((room.get("f"), room.get("f.f")), (b"cli\n".to_vec(), b"hlt\n".to_vec()));
    assert_eq!(room.names(), ["f", "f.f"]);
}
