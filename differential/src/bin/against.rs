//! Two builds of the library, timed in turn on the same inputs in one run; both must give the same counts, listings, statements and patches.
//! `differential/against` makes shared objects of the two and calls this: OTHER THIS ROUNDS.
use differential::sources;
use differential::timing::in_turn;
use std::ffi::{c_char, c_int, c_void, CString};
use std::hint::black_box;
use std::mem::transmute_copy;

unsafe extern "C" {
    fn dlopen(path: *const c_char, flags: c_int) -> *mut c_void;
    fn dlsym(library: *mut c_void, name: *const c_char) -> *mut c_void;
}
const RTLD_NOW: c_int = 2;

#[repr(C)]
#[derive(Clone, Copy, Debug, PartialEq)]
struct FullReading {
    refusal: [u32; 5],
    length: u32,
}

#[repr(C)]
#[derive(Clone, Copy, Debug, PartialEq)]
struct StatementReading {
    refusal: [u32; 5],
    found: u8,
    length: u32,
    ahead: u32,
}

#[repr(C)]
#[derive(Clone, Copy, Debug, PartialEq)]
struct Patching {
    refusal: [u32; 5],
    source: usize,
    listing: usize,
}

type Count = unsafe extern "C" fn(*const u8, usize) -> usize;
type FullRead = unsafe extern "C" fn(*const u8, usize, *mut u8, usize) -> FullReading;
type StatementRead = unsafe extern "C" fn(*const u8, usize, usize, *mut u8, usize) -> StatementReading;
#[rustfmt::skip]
type Patch = unsafe extern "C" fn(*const u8, usize, *const u8, usize, usize, *const u8, usize, *mut u8, usize, *mut u8, usize) -> Patching;

struct Library {
    count: Count,
    full_read: FullRead,
    statement_read: StatementRead,
    patch: Patch,
}

impl Library {
    fn open(path: &str, which: &str) -> Self {
        let text = |text: &str| CString::new(text).unwrap();
        let library = unsafe { dlopen(text(path).as_ptr(), RTLD_NOW) };
        assert!(!library.is_null(), "{which} cannot be loaded");
        let symbol = |name: &str| {
            let found = unsafe { dlsym(library, text(name).as_ptr()) };
            assert!(!found.is_null(), "{which} has no {name}");
            found
        };
        // These are their types in include/laqhoncu.h.
        unsafe {
            Self {
                count: transmute_copy(&symbol("laqhoncu_count")),
                full_read: transmute_copy(&symbol("laqhoncu_full_read")),
                statement_read: transmute_copy(&symbol("laqhoncu_statement_read")),
                patch: transmute_copy(&symbol("laqhoncu_patch")),
            }
        }
    }

    fn count(&self, source: &[u8]) -> usize {
        unsafe { (self.count)(source.as_ptr(), source.len()) }
    }

    fn full_read(&self, source: &[u8], out: &mut [u8]) -> FullReading {
        unsafe { (self.full_read)(source.as_ptr(), source.len(), out.as_mut_ptr(), out.len()) }
    }

    /// Every statement, one call after the other; how many bytes their records have.
    fn statements(&self, source: &[u8], out: &mut [u8]) -> usize {
        let (mut place, mut written) = (0, 0);
        loop {
            let rest = &mut out[written..];
            let said = unsafe { (self.statement_read)(source.as_ptr(), source.len(), place, rest.as_mut_ptr(), rest.len()) };
            assert_eq!(said.refusal[0], 0, "a statement is refused");
            if said.found == 0 {
                return written;
            }
            (place, written) = (said.ahead as usize, written + said.length as usize);
        }
    }

    fn patch(&self, old: &[u8], listing: &[u8], place: usize, new: &[u8], source: &mut [u8], out: &mut [u8]) -> Patching {
        let (to, room) = (source.as_mut_ptr(), source.len());
        unsafe {
            (self.patch)(
                old.as_ptr(),
                old.len(),
                listing.as_ptr(),
                listing.len(),
                place,
                new.as_ptr(),
                new.len(),
                to,
                room,
                out.as_mut_ptr(),
                out.len(),
            )
        }
    }
}

fn main() {
    let words: Vec<String> = std::env::args().skip(1).collect();
    let [other, this, rounds] = words.as_slice() else { panic!("against OTHER.so THIS.so ROUNDS") };
    let (other, this) = (Library::open(other, "the other build"), Library::open(this, "this build"));
    let rounds = rounds.parse().expect("a number of rounds");
    println!(
        "best of {rounds} rounds, the other build and this one in turn (median in brackets); by how much this one's best time is longer"
    );
    let inputs = [
        ("marker lines", sources::marker_lines(65536)),
        ("code lines", sources::code_lines(65536)),
        ("number lines", sources::number_lines(65536)),
    ];
    let (mut buffer, mut again) = (vec![0; 18 * 65536], vec![0; 18 * 65536]);
    for (title, text) in &inputs {
        let source = text.as_bytes();
        let tokens = this.count(source);
        assert_eq!(tokens, other.count(source), "{title}: counts");
        let (a, b) = in_turn(rounds, || other.count(black_box(source)), || this.count(black_box(source)));
        let speed = |seconds: f64| tokens as f64 / seconds / 1e6;
        let four = [a.best, a.median, b.best, b.median].map(speed);
        row(title, "tokens", "million tokens/s", four, b.best / a.best);
    }
    for (title, text) in &inputs {
        let source = text.as_bytes();
        let length = this.full_read(source, &mut buffer);
        assert!(length.refusal[0] == 0 && length == other.full_read(source, &mut again) && buffer == again, "{title}: listings");
        let (a, b) = in_turn(rounds, || other.full_read(black_box(source), &mut again), || this.full_read(black_box(source), &mut buffer));
        let speed = |seconds: f64| source.len() as f64 / seconds / 1e6;
        row(title, "full read", "MB/s", [a.best, a.median, b.best, b.median].map(speed), b.best / a.best);
    }
    for (title, text) in &inputs {
        // Each call tests the whole source: a short one, so that the time goes into the statements.
        let source = &text.as_bytes()[..text[..1024].rfind('\n').unwrap() + 1];
        let length = this.full_read(source, &mut again).length as usize;
        for (library, which) in [(&other, "other"), (&this, "this")] {
            assert_eq!(library.statements(source, &mut buffer), length, "{title}: statements of the {which} build");
            assert!(buffer[..length] == again[..length], "{title}: statements of the {which} build");
        }
        let turns = 64;
        let (a, b) = in_turn(
            rounds,
            || (0..turns).for_each(|_| assert_eq!(other.statements(black_box(source), &mut again), length)),
            || (0..turns).for_each(|_| assert_eq!(this.statements(black_box(source), &mut buffer), length)),
        );
        let speed = |seconds: f64| (turns * source.len()) as f64 / seconds / 1e6;
        row(title, "statement", "MB/s", [a.best, a.median, b.best, b.median].map(speed), b.best / a.best);
    }
    for (title, text) in &inputs {
        let source = &text.as_bytes()[..text[..65000].rfind('\n').unwrap() + 1];
        let length = this.full_read(source, &mut buffer).length as usize;
        let listing = buffer[..length].to_vec();
        let place = text[..source.len() / 2].rfind('\n').unwrap() + 1;
        let new = b"weld dw 12345, 6 ; moved";
        let (mut edited, mut twice) = (vec![0; 65536], vec![0; 65536]);
        let patched = this.patch(source, &listing, place, new, &mut edited, &mut buffer);
        assert!(
            patched.refusal[0] == 0 && patched == other.patch(source, &listing, place, new, &mut twice, &mut again),
            "{title}: patches"
        );
        assert!(edited == twice && buffer[..patched.listing] == again[..patched.listing], "{title}: patched listings");
        let (a, b) = in_turn(
            rounds,
            || other.patch(black_box(source), &listing, place, new, &mut twice, &mut again),
            || this.patch(black_box(source), &listing, place, new, &mut edited, &mut buffer),
        );
        row(title, "patch", "µs", [a.best, a.median, b.best, b.median].map(|seconds| seconds * 1e6), b.best / a.best);
    }
}

/// Best and median of the other, best and median of this, and this one's time by the other's.
fn row(title: &str, what: &str, unit: &str, [a, a_median, b, b_median]: [f64; 4], time: f64) {
    println!("  {what:9} {title:12}  other {a:7.1} ({a_median:7.1})  this {b:7.1} ({b_median:7.1}) {unit}; {:+.1} %", (time - 1.0) * 100.0);
}
