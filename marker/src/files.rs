//! Files: a source read whole, and a file replaced by its edited form at once or not at all.
use crate::outcome::{Status, Stop, named, reason};
use crate::{attributes, descriptors};
use laqhoncu::SOURCE_MAX;
use std::collections::hash_map::RandomState;
use std::ffi::{OsStr, OsString, c_int};
use std::fs::{self, DirEntry, File, FileType, Metadata, Permissions, TryLockError};
use std::hash::{BuildHasher, Hasher};
use std::io::{self, ErrorKind, Read, Seek, Write};
use std::os::fd::IntoRawFd;
use std::os::unix::ffi::{OsStrExt, OsStringExt};
use std::os::unix::fs::{FileTypeExt, MetadataExt, OpenOptionsExt, PermissionsExt, fchown};
use std::path::{Path, PathBuf};
use std::sync::mpsc;
use std::thread;
use std::time::Duration;

/// How long an edit waits for another one of the same file. An edit takes some milliseconds.
const WAIT: Duration = Duration::from_secs(10);

/// How often a file is taken hold of, when each time its name is another one's by then: another edit was done, or a link was turned.
const TRIES: usize = 1_000;

/// Whether the system's numbers below are the usual ones.
const IS_USUAL_LINUX: bool = cfg!(all(
    target_os = "linux",
    any(target_arch = "x86_64", target_arch = "x86", target_arch = "aarch64", target_arch = "arm", target_arch = "riscv64")
));

/// A FIFO that takes a file's place between two looks does not hold an open up.
const NONBLOCK: c_int = if IS_USUAL_LINUX { 0o4000 } else { 0 };
const SIGXFSZ: c_int = 25;
const IGNORE: usize = 1;

unsafe extern "C" {
    safe fn close(fd: c_int) -> c_int;
    fn signal(number: c_int, handler: usize) -> usize;
}

/// A limit on the length of files is an answer of `write` from here on, and not the end of the program.
pub fn outlive_limits() {
    if IS_USUAL_LINUX {
        // SAFETY: no handler is installed.
        unsafe { signal(SIGXFSZ, IGNORE) };
    }
}

/// Reads to the end, or so far that the source is too long.
fn read_all(from: impl Read) -> io::Result<Vec<u8>> {
    let mut source = Vec::new();
    from.take(SOURCE_MAX as u64 + 1).read_to_end(&mut source)?;
    Ok(source)
}

pub fn standard_input() -> Result<Vec<u8>, Stop> {
    let read = descriptors::file(0).and_then(|input| read_all(&*input));
    read.map_err(|error| Stop::failed(format!("standard input: {}", reason(&error))))
}

/// The bytes of a file, or of standard input for `-`.
pub fn source(name: &OsStr) -> Result<Vec<u8>, Stop> {
    if name == "-" {
        return standard_input();
    }
    let path = Path::new(name);
    // What is not opened is not read, whoever says no.
    let file = open(path, path, false).map_err(|stop| Stop { status: Status::Failed, ..stop })?;
    read_all(file).map_err(|error| Stop::system(path, &error))
}

/// Opens a regular file, which a person calls `name`. Anything else is not even opened: that alone may hang, or move a tape.
fn open(path: &Path, name: &Path, write: bool) -> Result<File, Stop> {
    let is_regular = |metadata: io::Result<Metadata>| match metadata {
        Err(error) => Err(Stop::system(name, &error)),
        Ok(metadata) if metadata.is_file() => Ok(()),
        Ok(metadata) => Err(Stop::refused(format!("{}: this is {}, and no regular file", named(name), kind(metadata.file_type())))),
    };
    is_regular(fs::metadata(path))?;
    let opened = File::options().read(true).write(write).custom_flags(NONBLOCK).open(path);
    let file = opened.map_err(|error| match error.kind() {
        ErrorKind::PermissionDenied if write => {
            Stop::failed(format!("{}: you may not read and write this file: {}", named(name), reason(&error)))
        }
        _ => Stop::system(name, &error),
    })?;
    is_regular(file.metadata())?;
    Ok(file)
}

fn kind(kind: FileType) -> &'static str {
    if kind.is_dir() {
        "a folder"
    } else if kind.is_fifo() {
        "a FIFO"
    } else if kind.is_socket() {
        "a socket"
    } else {
        "a device"
    }
}

/// A file that is being edited: nobody else edits it as long as this is there, and the system lets go of it when the program ends, however
/// it ends.
pub struct Held {
    /// The lock is on the file itself, so no second file is there to be left behind.
    locked: File,
    /// Where the file really is, all links followed.
    path: PathBuf,
    /// As the file was when it was read.
    metadata: Metadata,
    pub source: Vec<u8>,
}

/// Takes hold of a file that can be edited, and reads it.
pub fn hold(name: &Path) -> Result<Held, Stop> {
    for _ in 0..TRIES {
        let path = fs::canonicalize(name).map_err(|error| Stop::system(name, &error))?;
        let file = lock(open(&path, name, true)?, name)?;
        let metadata = file.metadata().map_err(|error| Stop::system(name, &error))?;
        // Another edit may have put a new file in its place before it let go, or a link leads elsewhere by now: then that one is to be held.
        if !leads_to(name, &path, &metadata).unwrap_or(false) {
            continue;
        }
        if metadata.nlink() > 1 {
            let others = metadata.nlink() - 1;
            let names = if others == 1 { "another name".to_string() } else { format!("{others} other names") };
            return Err(Stop::refused(format!("{}: the file has {names} (hard links), which an edit would not reach", named(name))));
        }
        let source = read_all(&file).map_err(|error| Stop::system(name, &error))?;
        return Ok(Held { locked: file, path, metadata, source });
    }
    Err(Stop::failed(format!("{}: another file is put in its place again and again; nothing was edited; try again", named(name))))
}

/// Whether a name, all links followed, is this path, and this file is there.
fn leads_to(name: &Path, path: &Path, file: &Metadata) -> io::Result<bool> {
    let there = fs::symlink_metadata(path)?;
    Ok(fs::canonicalize(name)? == path && (there.dev(), there.ino()) == (file.dev(), file.ino()))
}

/// Waits until no other edit holds the file, in a thread, so that the wait can end without it.
fn lock(file: File, name: &Path) -> Result<File, Stop> {
    let cannot = |error: &io::Error| Stop::failed(format!("{}: the file cannot be locked: {}", named(name), reason(error)));
    match file.try_lock() {
        Ok(()) => return Ok(file),
        Err(TryLockError::Error(error)) => return Err(cannot(&error)),
        Err(TryLockError::WouldBlock) => {}
    }
    let (send, receive) = mpsc::channel();
    thread::spawn(move || send.send(file.lock().map(|()| file)));
    match receive.recv_timeout(WAIT) {
        Ok(Ok(file)) => Ok(file),
        Ok(Err(error)) => Err(cannot(&error)),
        Err(_) => Err(Stop::failed(format!(
            "{}: another program has held the file for {} seconds; nothing was edited; try again when it has ended",
            named(name),
            WAIT.as_secs()
        ))),
    }
}

/// The new file, until it takes the old one's name; removed where it doesn't come to that.
struct New {
    path: PathBuf,
    renamed: bool,
}

impl Drop for New {
    fn drop(&mut self) {
        if !self.renamed {
            let _ = fs::remove_file(&self.path);
        }
    }
}

/// What of the old file the new one has.
struct Kept {
    user: bool,
    group: bool,
    attributes: bool,
    list: bool,
    mode: bool,
}

impl Held {
    /// Puts a file with these bytes in the place of the held one: written beside it, flushed, and then renamed, so that whoever opens the
    /// file finds the old one or the new one, whole. Where an answer before the rename is no, the old one is there as it was. Gives words for
    /// what could not be kept, by force.
    pub fn replace(self, name: &Path, bytes: &[u8], force: bool) -> Result<Option<String>, Stop> {
        let no = |error: io::Error| Stop::system(name, &error);
        let (Some(folder), Some(base)) = (self.path.parent(), self.path.file_name()) else {
            return Err(Stop::failed(format!("{}: there is no folder to write to", named(name))));
        };
        let beside = |error: io::Error| {
            Stop::failed(format!("{}: the new file cannot be made in {}: {}", named(name), named(folder), reason(&error)))
        };
        let opened_folder = File::open(folder).map_err(beside)?;
        if leads_to(name, &self.path, &self.metadata).unwrap_or(false) {
            remove_leftovers(folder, base);
        }
        let path = folder.join(new_name(base));
        // For its owner alone, until it has the old one's owner and mode.
        let mut file = File::options().write(true).create_new(true).mode(0o600).open(&path).map_err(beside)?;
        let mut new = New { path, renamed: false };
        let mut kept = Kept { user: true, group: true, attributes: true, list: true, mode: true };
        self.keep_owner(name, &file, force, &mut kept)?;
        file.write_all(bytes).map_err(no)?;
        self.keep_attributes(name, &file, force, &mut kept)?;
        // Last, since a change of owner takes bits away, and since a list that the folder has given to the file is shut until here.
        self.keep_mode(name, &file, force, &mut kept)?;
        file.sync_all().map_err(no)?;
        // Its answer counts, and dropping the file would not give it.
        if close(file.into_raw_fd()) < 0 {
            return Err(no(io::Error::last_os_error()));
        }
        self.look_again(name)?;
        fs::rename(&new.path, &self.path)
            .map_err(|error| Stop::failed(format!("{}: the new file cannot take its place: {}", named(name), reason(&error))))?;
        new.renamed = true;
        let lost = self.lost(&kept);
        opened_folder.sync_all().map_err(|error| {
            Stop::failed(format!(
                "{}: the line is replaced, but the folder could not be flushed ({}): if the power fails now, the edit may be lost{}",
                named(name),
                reason(&error),
                lost.as_ref().map_or(String::new(), |lost| format!("; not kept: {lost}"))
            ))
        })?;
        Ok(lost)
    }

    /// What cannot be kept is said, and nothing is edited but by force.
    fn cannot_keep(name: &Path, what: &str, why: &str) -> Stop {
        Stop::refused(format!(
            "{}: {what} cannot be kept ({why}); nothing was edited\n`marker edit --force` edits it all the same",
            named(name)
        ))
    }

    /// Gives the new file the old one's owner and group, or what is permitted of it, by force.
    fn keep_owner(&self, name: &Path, file: &File, force: bool, kept: &mut Kept) -> Result<(), Stop> {
        let (user, group) = (self.metadata.uid(), self.metadata.gid());
        let mut look = || {
            let made = file.metadata().map_err(|error| Stop::system(name, &error))?;
            (kept.user, kept.group) = (made.uid() == user, made.gid() == group);
            Ok(kept.user && kept.group)
        };
        if look()? {
            return Ok(());
        }
        if let Err(error) = fchown(file, Some(user), Some(group)) {
            if !force {
                return Err(Self::cannot_keep(name, &format!("user {user} and group {group}, whose file it is,"), &reason(&error)));
            }
            // The group alone may be permitted.
            let _ = fchown(file, None, Some(group));
        }
        look().map(|_| ())
    }

    /// Gives the new file the old one's extended attributes; access control lists are among them.
    fn keep_attributes(&self, name: &Path, file: &File, force: bool, kept: &mut Kept) -> Result<(), Stop> {
        match attributes::copy(&self.locked, file) {
            Ok(()) => {}
            Err(lost) if force => (kept.attributes, kept.list) = (false, !lost.is_list),
            Err(lost) => {
                let what = if lost.is_list { "its access control list" } else { "an extended attribute of the file" };
                return Err(Self::cannot_keep(name, what, &reason(&lost.error)));
            }
        }
        Ok(())
    }

    /// Gives the new file the old one's mode; where something else is not kept, so much of it that nobody gets more than before. The user who
    /// owns the file now is not the one whose rights a set-user bit gives. Members of another group may have been anybody, and those of the old
    /// one are anybody now. And a list may have shut somebody out.
    fn keep_mode(&self, name: &Path, file: &File, force: bool, kept: &mut Kept) -> Result<(), Stop> {
        let system = |error: io::Error| Stop::system(name, &error);
        let old = self.metadata.mode() & 0o7777;
        let wanted = match kept {
            Kept { list: false, .. } => old & 0o700,
            Kept { group: false, .. } => old & (0o700 | (old & 0o007) << 3 | (old & 0o070) >> 3),
            Kept { user: false, .. } => old & 0o777,
            _ => old,
        };
        file.set_permissions(Permissions::from_mode(wanted)).map_err(system)?;
        // The system may leave a bit out without a word.
        kept.mode = file.metadata().map_err(system)?.mode() & 0o7777 == old;
        match kept.mode || force {
            true => Ok(()),
            false => Err(Self::cannot_keep(name, &format!("mode {old:o}"), "the system gives another one")),
        }
    }

    fn lost(&self, kept: &Kept) -> Option<String> {
        let lost: Vec<String> = [
            (kept.user, format!("user {}", self.metadata.uid())),
            (kept.group, format!("group {}", self.metadata.gid())),
            (kept.list, "the access control list".to_string()),
            (kept.attributes || !kept.list, "an extended attribute".to_string()),
            (kept.mode, format!("mode {:o}", self.metadata.mode() & 0o7777)),
        ]
        .into_iter()
        .filter_map(|(is_kept, what)| (!is_kept).then_some(what))
        .collect();
        (!lost.is_empty()).then(|| lost.join(", "))
    }

    /// Programs that know nothing of the lock may have changed the file or put another in its place. Its times alone
    /// don't tell: the clock of many file systems takes two changes within some milliseconds for one.
    fn look_again(&self, name: &Path) -> Result<(), Stop> {
        let state = |m: &Metadata| {
            let times = (m.mtime(), m.mtime_nsec(), m.ctime(), m.ctime_nsec());
            (m.len(), times, m.mode(), m.uid(), m.gid(), m.nlink())
        };
        let is_as_it_was = || -> io::Result<bool> {
            let mut locked = &self.locked;
            let is_there = leads_to(name, &self.path, &self.metadata)?;
            locked.rewind()?;
            Ok(is_there && read_all(locked)? == self.source && state(&locked.metadata()?) == state(&self.metadata))
        };
        match is_as_it_was() {
            Ok(true) => Ok(()),
            Ok(false) => {
                Err(Stop::failed(format!("{}: another program has changed the file meanwhile; nothing was edited; try again", named(name))))
            }
            Err(error) => Err(Stop::system(name, &error)),
        }
    }
}

/// Longer names are cut in the new file's name, which has a limit too.
const BASE: usize = 200;

/// What the names of all new files of a file have in front, and behind 32 hexadecimal digits.
fn parts(base: &OsStr) -> (Vec<u8>, &'static [u8]) {
    let base = base.as_bytes();
    ([b".", &base[..base.len().min(BASE)], b"."].concat(), b".marker")
}

/// A name that nobody can guess, so that nobody can put something there before: the keys of `RandomState` are the system's random numbers.
fn new_name(base: &OsStr) -> OsString {
    let random = || RandomState::new().build_hasher().finish();
    let (head, tail) = parts(base);
    OsString::from_vec([&head, format!("{:016x}{:016x}", random(), random()).as_bytes(), tail].concat())
}

/// Removes new files that an edit of this file left behind when it was cut off. The file is held, so no edit has one in use; but a name as
/// long as those that are cut may be another file's too.
fn remove_leftovers(folder: &Path, base: &OsStr) {
    if base.len() >= BASE {
        return;
    }
    let (head, tail) = parts(base);
    let is_leftover = |entry: &DirEntry| {
        let name = entry.file_name();
        let digits = name.as_bytes().strip_prefix(head.as_slice()).and_then(|rest| rest.strip_suffix(tail));
        digits.is_some_and(|digits| digits.len() == 32 && digits.iter().all(u8::is_ascii_hexdigit))
            && entry.file_type().is_ok_and(|kind| kind.is_file())
    };
    for entry in fs::read_dir(folder).into_iter().flatten().flatten().filter(is_leftover) {
        let _ = fs::remove_file(entry.path());
    }
}
