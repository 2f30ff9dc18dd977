//! What the tests share: folders of their own on a real disk, the program with a limit of time, and the preloaded shim.
#![allow(dead_code)] // each test file uses a part of it
use std::ffi::{CString, OsStr, OsString, c_char, c_int, c_void};
use std::fs::{self, Permissions};
use std::io::{self, Read, Write};
use std::os::unix::ffi::OsStrExt;
use std::os::unix::fs::PermissionsExt;
use std::os::unix::process::{CommandExt, ExitStatusExt};
use std::path::{Path, PathBuf};
use std::process::{Child, Command, Stdio};
use std::sync::OnceLock;
use std::thread;
use std::time::{Duration, Instant};

pub const MARKER: &str = env!("CARGO_BIN_EXE_marker");

/// Longer than any run takes that is not stuck; the wait for a lock has 10 seconds of its own.
const LIMIT: Duration = Duration::from_secs(60);

/// A folder of a test's own, with the files that it makes; gone when the test ends.
pub struct Room(pub PathBuf);

impl Room {
    pub fn new(name: &str) -> Self {
        let path = Path::new(env!("CARGO_TARGET_TMPDIR")).join(format!("{name}-{}", std::process::id()));
        // One that was cut off may have left its own.
        let _ = fs::remove_dir_all(&path);
        fs::create_dir(&path).unwrap_or_else(|error| panic!("{}: {error}", path.display()));
        Self(path)
    }

    pub fn path(&self, name: impl AsRef<Path>) -> PathBuf {
        self.0.join(name)
    }

    pub fn put(&self, name: impl AsRef<Path>, bytes: impl AsRef<[u8]>) {
        fs::write(self.path(name), bytes).unwrap();
    }

    pub fn get(&self, name: impl AsRef<Path>) -> Vec<u8> {
        fs::read(self.path(name)).unwrap()
    }

    /// The names in the folder, hidden ones among them.
    pub fn names(&self) -> Vec<OsString> {
        names(&self.0)
    }

    /// The program, run in this folder.
    pub fn marker<S: AsRef<OsStr>>(&self, words: impl IntoIterator<Item = S>) -> Command {
        let mut command = Command::new(MARKER);
        command.args(words).current_dir(&self.0);
        command
    }

    pub fn run<S: AsRef<OsStr>>(&self, words: impl IntoIterator<Item = S>) -> Said {
        run(&mut self.marker(words), b"")
    }

    /// The program below a shell that runs these commands first, such as `umask 077`.
    pub fn below<S: AsRef<OsStr>>(&self, first: &str, words: impl IntoIterator<Item = S>) -> Command {
        let mut command = Command::new("sh");
        command.args(["-c", &format!("{first}; exec \"$0\" \"$@\""), MARKER]).args(words).current_dir(&self.0);
        command
    }

    /// The file `f` has these bytes, and nothing stands beside it.
    #[track_caller]
    pub fn has_only_f(&self, bytes: impl AsRef<[u8]>, what: &str) {
        assert!(self.get("f") == bytes.as_ref(), "{what}: the file is not as expected");
        assert_eq!(self.names(), ["f"], "{what}: a file is left behind");
    }
}

impl Drop for Room {
    fn drop(&mut self) {
        let _ = fs::remove_dir_all(&self.0);
    }
}

pub fn names(folder: &Path) -> Vec<OsString> {
    let mut names: Vec<OsString> = fs::read_dir(folder).unwrap().map(|entry| entry.unwrap().file_name()).collect();
    names.sort();
    names
}

/// What a program said, and how it ended.
#[derive(Debug, PartialEq)]
pub struct Said {
    pub status: Option<i32>,
    pub signal: Option<i32>,
    pub out: String,
    pub err: String,
}

impl Said {
    /// The program ended with this status, and wrote this to its outputs, to the byte.
    #[track_caller]
    pub fn is(&self, status: i32, out: &str, err: &str) {
        let wanted = Said { status: Some(status), signal: None, out: out.to_string(), err: err.to_string() };
        assert!(*self == wanted, "said:\n{self:#?}\nwanted:\n{wanted:#?}");
    }
}

/// Runs a program to its end, with this on its standard input unless the command has one already.
pub fn run(command: &mut Command, input: &[u8]) -> Said {
    command.stdin(Stdio::piped());
    run_as_is(command, input)
}

pub fn run_as_is(command: &mut Command, input: &[u8]) -> Said {
    let mut child = command.stdout(Stdio::piped()).stderr(Stdio::piped()).spawn().unwrap();
    if let Some(mut to) = child.stdin.take() {
        // One that is not read is as good as none; and a program that reads on must not wait for it.
        let input = input.to_vec();
        thread::spawn(move || to.write_all(&input));
    }
    ended(child, LIMIT)
}

/// Waits for a program; one that takes longer is killed, and the test fails.
pub fn ended(mut child: Child, limit: Duration) -> Said {
    fn text(from: Option<impl Read + Send + 'static>) -> thread::JoinHandle<String> {
        thread::spawn(move || {
            let mut text = String::new();
            from.map(|mut from| from.read_to_string(&mut text).expect("the program writes UTF-8"));
            text
        })
    }
    let (out, err) = (text(child.stdout.take()), text(child.stderr.take()));
    let began = Instant::now();
    let status = loop {
        if let Some(status) = child.try_wait().unwrap() {
            break status;
        }
        if began.elapsed() > limit {
            child.kill().unwrap();
            child.wait().unwrap();
            panic!("the program has not ended after {limit:?}");
        }
        thread::sleep(Duration::from_millis(1));
    };
    Said { status: status.code(), signal: status.signal(), out: out.join().unwrap(), err: err.join().unwrap() }
}

/// Says something that is seen though the test passes.
pub fn notice(text: &str) {
    let _ = writeln!(io::stderr(), "    {text}");
}

unsafe extern "C" {
    safe fn geteuid() -> u32;
    fn setxattr(path: *const c_char, name: *const c_char, value: *const c_void, size: usize, flags: c_int) -> c_int;
    fn getxattr(path: *const c_char, name: *const c_char, value: *mut c_void, size: usize) -> isize;
}

/// Whether the test may give files away; says that it is skipped otherwise.
pub fn is_root(test: &str) -> bool {
    if geteuid() != 0 {
        notice(&format!("{test}: skipped, since it takes root"));
    }
    geteuid() == 0
}

/// A user and group that own nothing.
pub const NOBODY: u32 = 65534;

/// Whether the program can be run as another user here; says that the test is skipped otherwise.
pub fn has_nobody(room: &Room, test: &str) -> bool {
    if !is_root(test) {
        return false;
    }
    fs::set_permissions(&room.0, Permissions::from_mode(0o755)).unwrap();
    let mut command = room.marker(["--version"]);
    let can = command.uid(NOBODY).gid(NOBODY).stdout(Stdio::null()).status().is_ok_and(|status| status.success());
    if !can {
        notice(&format!("{test}: skipped, since user {NOBODY} cannot run the program in {}", room.0.display()));
    }
    can
}

fn c_string(bytes: &[u8]) -> CString {
    CString::new(bytes).unwrap()
}

pub fn set_attribute(path: &Path, name: &str, value: &[u8]) -> io::Result<()> {
    let (path, name) = (c_string(path.as_os_str().as_bytes()), c_string(name.as_bytes()));
    // SAFETY: both names end in a zero byte, and the value has as many bytes as is said.
    match unsafe { setxattr(path.as_ptr(), name.as_ptr(), value.as_ptr().cast(), value.len(), 0) } {
        0 => Ok(()),
        _ => Err(io::Error::last_os_error()),
    }
}

/// The value of `system.posix_acl_access` or `_default`: tag, rights and user of each entry. Tag 1 is the owner, 2 a user, 4 the group, 0x10 the
/// mask, 0x20 all others; without a user it is !0.
pub fn access_list(entries: &[(u16, u16, u32)]) -> Vec<u8> {
    let entry = |(tag, rights, user): &(u16, u16, u32)| [&tag.to_le_bytes()[..], &rights.to_le_bytes(), &user.to_le_bytes()].concat();
    [2_u32.to_le_bytes().to_vec(), entries.iter().flat_map(entry).collect()].concat()
}

pub fn attribute(path: &Path, name: &str) -> io::Result<Vec<u8>> {
    let (path, name) = (c_string(path.as_os_str().as_bytes()), c_string(name.as_bytes()));
    let mut value = vec![0; 65_536];
    // SAFETY: both names end in a zero byte, and the buffer has as many bytes as is said.
    let length = unsafe { getxattr(path.as_ptr(), name.as_ptr(), value.as_mut_ptr().cast(), value.len()) };
    value.truncate(usize::try_from(length).map_err(|_| io::Error::last_os_error())?);
    Ok(value)
}

/// The shim, compiled once for each test program.
fn shim() -> &'static Path {
    static SHIM: OnceLock<PathBuf> = OnceLock::new();
    SHIM.get_or_init(|| {
        let source = Path::new(env!("CARGO_MANIFEST_DIR")).join("tests/calls.c");
        let shim = Path::new(env!("CARGO_TARGET_TMPDIR")).join(concat!(env!("CARGO_CRATE_NAME"), "-calls.so"));
        // Another run of the tests may have the old one in use.
        let new = shim.with_extension(std::process::id().to_string());
        let compiler = std::env::var_os("CC").unwrap_or("cc".into());
        let options = ["-shared", "-fPIC", "-O1", "-pthread", "-Wall", "-Wextra", "-Werror", "-o"];
        let status = Command::new(&compiler).args(options).arg(&new).arg(&source).status();
        assert!(status.is_ok_and(|status| status.success()), "{} does not compile {}", compiler.display(), source.display());
        fs::rename(new, &shim).unwrap();
        shim
    })
}

/// The program's calls on files, seen from below; what the shim does else is said by its variables, see calls.c. Its files stand in a
/// folder of their own, so that nothing comes to stand beside the file that is edited.
pub struct Calls(Room);

impl Calls {
    pub fn new(name: &str) -> Self {
        Self(Room::new(&format!("{name}-calls")))
    }

    pub fn on<'a>(&self, command: &'a mut Command, variables: &[(&str, &str)]) -> &'a mut Command {
        let _ = fs::remove_file(self.0.path("log"));
        command.env("LD_PRELOAD", shim()).env("CALLS_LOG", self.0.path("log")).env("CALLS_PAUSED", self.0.path("paused"));
        command.envs(variables.iter().copied())
    }

    /// The calls so far, each on a line.
    pub fn log(&self) -> Vec<String> {
        fs::read_to_string(self.0.path("log")).unwrap_or_default().lines().map(str::to_string).collect()
    }

    /// Waits until the program stands at the call that it is to pause at. One that never comes there fails the test.
    pub fn wait_for_pause(&self, child: &mut Child) {
        let began = Instant::now();
        while !self.0.path("paused").exists() {
            assert!(child.try_wait().unwrap().is_none(), "the program has ended without a pause: {:#?}", self.log());
            assert!(began.elapsed() < LIMIT, "the program comes to no pause: {:#?}", self.log());
            thread::sleep(Duration::from_millis(1));
        }
    }

    pub fn go_on(&self) {
        fs::remove_file(self.0.path("paused")).unwrap();
    }
}
