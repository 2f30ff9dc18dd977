//! The stack that each call needs: every function of include/laqhoncu.h, on inputs that take it deepest, is called on a stack of exactly the bytes
//! that the header states, below which nothing can be touched, and answers as on a large one. The stack holds a pattern before the call, so that what
//! the call has touched is seen: its arguments, where they are passed there, its return address and all frames. On 16 bytes less than that, and on
//! half, the same inputs must end in a fault.
//!
//! Each function is called in a process of its own, which a fault may end: this program calls itself with the function's name and the stack's length.
use differential::sources::{self, words};
use laqhoncu::{LISTING_FACTOR, SOURCE_MAX};
use std::collections::BTreeSet;
use std::ffi::{c_int, c_void};
use std::os::unix::process::ExitStatusExt;
use std::process::{Command, Output};

/// A function; the header's constant behind `LAQHONCU_STACK_`; what it is called with; its arguments in turn, of which the first says where the answer
/// goes, if it goes to memory; from where to where the answer has fields.
struct Row {
    name: &'static str,
    function: unsafe extern "C" fn(),
    stated: &'static str,
    inputs: fn() -> Vec<Input>,
    arguments: fn(&Input, &mut Lent) -> Vec<usize>,
    answer: &'static [(usize, usize)],
}

macro_rules! row {
    ($name:ident, $stated:literal, $inputs:ident, $arguments:ident, $answer:expr) => {{
        // Only its address is used: include/laqhoncu.h says what it takes and gives.
        unsafe extern "C" {
            fn $name();
        }
        Row { name: stringify!($name), function: $name, stated: $stated, inputs: $inputs, arguments: $arguments, answer: &$answer }
    }};
}

const ROWS: &[Row] = &[
    row!(laqhoncu_full_read, "FULL_READ", reads, full_read, [(0, 24)]),
    row!(laqhoncu_full_read_lean, "FULL_READ_LEAN", reads, full_read, [(0, 24)]),
    row!(laqhoncu_statement_read, "STATEMENT_READ", reads, statement_read, [(0, 21), (24, 32)]),
    row!(laqhoncu_token_read, "OTHER", reads, token_read, [(0, 20), (24, 25), (28, 40)]),
    row!(laqhoncu_token, "OTHER", tokens, token, [(0, 1), (4, 16)]),
    row!(laqhoncu_count, "OTHER", reads, word, [(0, 8)]),
    row!(laqhoncu_patch, "PATCH", patches, patch, [(0, 20), (24, 40)]),
    row!(laqhoncu_evaluate, "OTHER", values, evaluate, [(0, 24)]),
    row!(laqhoncu_operation, "OTHER", tokens, word, [(0, 1)]),
    row!(laqhoncu_name, "OTHER", tokens, word, [(0, 2)]),
    row!(laqhoncu_directive, "OTHER", tokens, word, [(0, 1)]),
];

/// What a call is given, but for what it writes to.
#[derive(Default)]
struct Input {
    source: Vec<u8>,
    place: usize,
    /// of the patch
    listing: Vec<u8>,
    text: Vec<u8>,
    /// of `evaluate`
    values: [i32; 2],
}

/// What a call writes to.
#[derive(Clone)]
struct Lent {
    answer: [u8; 64],
    source: Vec<u8>,
    out: Vec<u8>,
}

impl Lent {
    fn answer(&mut self) -> usize {
        self.answer.as_mut_ptr() as usize
    }
}

/// The two arguments that a slice is.
fn slice(bytes: &[u8]) -> [usize; 2] {
    [bytes.as_ptr() as usize, bytes.len()]
}

fn full_read(input: &Input, lent: &mut Lent) -> Vec<usize> {
    [&[lent.answer()], &slice(&input.source)[..], &slice(&lent.out)].concat()
}

fn statement_read(input: &Input, lent: &mut Lent) -> Vec<usize> {
    [&token_read(input, lent)[..], &slice(&lent.out)].concat()
}

fn token_read(input: &Input, lent: &mut Lent) -> Vec<usize> {
    [&[lent.answer()], &token(input, lent)[..]].concat()
}

fn token(input: &Input, _: &mut Lent) -> Vec<usize> {
    [&slice(&input.source)[..], &[input.place]].concat()
}

fn word(input: &Input, _: &mut Lent) -> Vec<usize> {
    slice(&input.source).to_vec()
}

fn patch(input: &Input, lent: &mut Lent) -> Vec<usize> {
    let old = [slice(&input.source), slice(&input.listing)].concat();
    let new = [slice(&input.text), slice(&lent.source), slice(&lent.out)].concat();
    [&[lent.answer()], &old[..], &[input.place], &new].concat()
}

fn evaluate(input: &Input, lent: &mut Lent) -> Vec<usize> {
    let [left, right] = input.values.map(|value| value as usize);
    vec![lent.answer(), input.place, left, right]
}

/// Each operator, and a number that is none, on numbers whose value fits, is too large, or has a zero divisor.
fn values() -> Vec<Input> {
    let pairs = [[7, 2], [i32::MIN, -1], [i32::MAX, i32::MAX], [1, 0]];
    (0..5).flat_map(|place| pairs.map(|values| Input { place, values, ..Input::default() })).collect()
}

/// Sources that are long, deep, refused in every way, or empty; deep lines at the end of the longest source too. The places are the first, one in the
/// middle, the last and one beyond.
fn reads() -> Vec<Input> {
    let mut list = Vec::new();
    let mut add = |source: &[u8], places: &[usize]| {
        list.extend(places.iter().map(|place| Input { source: source.to_vec(), place: *place, ..Input::default() }));
    };
    for line in sources::causes().into_iter().chain(sources::deepest()) {
        add(line.as_bytes(), &[0, line.len() / 2, line.len(), line.len() + 1]);
    }
    for line in sources::deepest().iter().step_by(5) {
        let above = "in\n".repeat((SOURCE_MAX - line.len()) / 3);
        add((above.clone() + line).as_bytes(), &[0, above.len()]);
    }
    sources::long(&mut |source| add(source, &[0, source.len() / 2]));
    list
}

/// Numbers at the edges, words that mean something, and those sources.
fn tokens() -> Vec<Input> {
    let mut list = reads();
    let mut add = |text: &str| list.push(Input { source: text.as_bytes().to_vec(), ..Input::default() });
    for word in words::spellings().into_iter().chain(words::OTHERS) {
        [word, &word.to_uppercase(), &format!("{word}.")].iter().for_each(|text| add(text));
    }
    let mut turn = 0;
    sources::tokens::numbers(&mut |text| {
        turn += 1;
        if turn % 97 == 0 {
            add(text)
        }
    });
    list
}

/// Deep lines as the new line, as the replaced one and as the one above; in the middle and at the ends of a source of one line and of the longest one,
/// with its listing and with none; and the calls with the longest sources.
fn patches() -> Vec<Input> {
    let mut list = vec![Input::default()];
    let mut add = |source: &[u8], place: usize, text: &[u8]| {
        let listing = laqhoncu::listing(source).unwrap_or_default();
        list.push(Input { source: source.to_vec(), place, listing, text: text.to_vec(), ..Input::default() });
    };
    for line in sources::causes().into_iter().chain(sources::deepest()) {
        let line = line.split('\n').next().unwrap().as_bytes();
        add(b"", 0, line);
        add(b"a\nin\nb", 2, line);
        add(line, 0, b"ret");
        add(&[line, b"\nin"].concat(), line.len() + 1, b"ret");
    }
    for line in sources::deepest().iter().step_by(15) {
        let (line, room) = (line.as_bytes(), SOURCE_MAX - line.len() - 1);
        for unit in ["in\n", "a\n", "mov ax,[bx+4]\n"] {
            let lines = unit.repeat(room / unit.len());
            let middle = room / unit.len() / 2 * unit.len();
            [0, middle, lines.len()].iter().for_each(|place| add(lines.as_bytes(), *place, line));
            let source = [&lines.as_bytes()[..middle], line, b"\n", &lines.as_bytes()[middle..]].concat();
            [middle, middle + line.len() + 1].iter().for_each(|place| add(&source, *place, b"ret"));
        }
    }
    sources::patches::longest(&mut |call| add(call.source, call.place, call.text));
    add(b"", 0, &b"in ".repeat(SOURCE_MAX / 3));
    list
}

/// The bytes of a stack, between two stretches that can't be touched; the lower one is longer than any frame, so that none goes over it.
struct Stack {
    base: *mut u8,
    length: usize,
}

unsafe extern "C" {
    fn mmap(at: *mut c_void, length: usize, access: c_int, flags: c_int, file: c_int, offset: i64) -> *mut c_void;
    fn mprotect(at: *mut c_void, length: usize, access: c_int) -> c_int;
}
const NO_ACCESS: c_int = 0;
const READ_AND_WRITE: c_int = 1 | 2;
const PRIVATE_MEMORY: c_int = 0x02 | 0x20;

impl Stack {
    const PAGE: usize = 4096;
    const BELOW: usize = 1 << 20;
    const PATTERN: u8 = 0xA5;

    fn new(length: usize) -> Self {
        assert_eq!(length % 16, 0, "the end of a stack is a multiple of 16");
        let pages = length.next_multiple_of(Self::PAGE);
        unsafe {
            let all = mmap(std::ptr::null_mut(), Self::BELOW + pages + Self::PAGE, NO_ACCESS, PRIVATE_MEMORY, -1, 0);
            assert_ne!(all as isize, -1, "no memory for the stack");
            let base = all.byte_add(Self::BELOW);
            assert_eq!(mprotect(base, pages, READ_AND_WRITE), 0);
            Self { base: base.cast(), length }
        }
    }

    /// How many bytes a call has touched, with a pattern there before.
    fn touched(&self, call: impl FnOnce(&Self)) -> usize {
        unsafe { self.base.write_bytes(Self::PATTERN, self.length) };
        call(self);
        let bytes = unsafe { std::slice::from_raw_parts(self.base, self.length) };
        self.length - bytes.iter().take_while(|byte| **byte == Self::PATTERN).count()
    }

    /// Makes a call. What it answers in registers is put where the other functions put their answers.
    fn call(&self, row: &Row, input: &Input, lent: &mut Lent) {
        let mut arguments = (row.arguments)(input, lent);
        let in_memory = arguments[0] == lent.answer();
        // Six go into registers, the others onto the stack, whose end must be a multiple of 16.
        arguments.resize(arguments.len().max(6).next_multiple_of(2), 0);
        let (registers, others) = arguments.split_at(6);
        let (mut low, mut high): (usize, usize);
        unsafe {
            let end = self.base.add(self.length - 8 * others.len());
            std::ptr::copy_nonoverlapping(others.as_ptr(), end.cast(), others.len());
            std::arch::asm!(
                "xchg rsp, r12",
                "call r13",
                "mov rsp, r12",
                inout("r12") end => _,
                in("r13") row.function,
                in("rdi") registers[0],
                in("rsi") registers[1],
                inout("rdx") registers[2] => high,
                in("rcx") registers[3],
                in("r8") registers[4],
                in("r9") registers[5],
                out("rax") low,
                clobber_abi("C"),
            );
        }
        if !in_memory {
            lent.answer[..8].copy_from_slice(&low.to_le_bytes());
            lent.answer[8..16].copy_from_slice(&high.to_le_bytes());
        }
    }
}

/// Every input of a row on a stack of so many bytes. Gives how many inputs there are, and the most bytes that one has touched.
fn on_a_stack(row: &Row, length: usize) -> (usize, usize) {
    let (stack, large, inputs) = (Stack::new(length), Stack::new(1 << 20), (row.inputs)());
    let mut lent = Lent { answer: [0; 64], source: vec![0; SOURCE_MAX], out: vec![0; LISTING_FACTOR * SOURCE_MAX] };
    let (mut other, mut most) = (lent.clone(), 0);
    for input in &inputs {
        large.call(row, input, &mut other);
        most = most.max(stack.touched(|stack| stack.call(row, input, &mut lent)));
        let fields = row.answer.iter().all(|(from, to)| lent.answer[*from..*to] == other.answer[*from..*to]);
        let written = LISTING_FACTOR * SOURCE_MAX.min(input.source.len() + input.text.len());
        let bytes = lent.source == other.source && lent.out[..written] == other.out[..written];
        assert!(fields && bytes, "{}: another answer on a large stack", row.name);
    }
    (inputs.len(), most)
}

/// The same in a process of its own: None where it ends in a fault.
fn in_a_process(row: &Row, length: usize) -> Option<(usize, usize)> {
    let words = ["on-a-stack", row.name, &length.to_string()];
    let Output { status, stdout, stderr } = Command::new(std::env::current_exe().unwrap()).args(words).output().unwrap();
    if let Some(7 | 11) = status.signal() {
        return None;
    }
    assert!(status.success(), "{words:?}: {status}\n{}", String::from_utf8_lossy(&stderr));
    let numbers = String::from_utf8(stdout).unwrap();
    let (inputs, most) = numbers.trim().split_once(' ').unwrap();
    Some((inputs.parse().unwrap(), most.parse().unwrap()))
}

const HEADER: &str = include_str!("../../include/laqhoncu.h");

/// The constants of the header, behind `LAQHONCU_STACK_`, and their numbers.
fn stated() -> Vec<(&'static str, usize)> {
    let lines = HEADER.lines().filter_map(|line| line.strip_prefix("#define LAQHONCU_STACK_")?.split_once(' '));
    lines.map(|(name, number)| (name, number.parse().unwrap())).collect()
}

/// The functions that the header declares.
fn declared() -> BTreeSet<&'static str> {
    let lines = HEADER.lines().filter(|line| line.contains(" laqhoncu_") && !line.starts_with(' ') && !line.starts_with("/*"));
    lines.filter_map(|line| line.split_once('(')?.0.rsplit_once(' ')).map(|(_, name)| name).collect()
}

fn main() {
    let words: Vec<String> = std::env::args().skip(1).collect();
    if let [first, name, length] = words.as_slice() {
        assert_eq!(first, "on-a-stack");
        let row = ROWS.iter().find(|row| row.name == name).unwrap();
        let (inputs, most) = on_a_stack(row, length.parse().unwrap());
        return println!("{inputs} {most}");
    }
    let stated = stated();
    assert_eq!(declared(), ROWS.iter().map(|row| row.name).collect(), "declared, and called here");
    let names = |names: &mut dyn Iterator<Item = &'static str>| names.collect::<BTreeSet<_>>();
    assert_eq!(names(&mut stated.iter().map(|(name, _)| *name)), names(&mut ROWS.iter().map(|row| row.stated)), "stated, and used here");
    for row in ROWS {
        let (_, length) = stated.iter().find(|(name, _)| *name == row.stated).unwrap();
        let found = in_a_process(row, *length);
        let (inputs, most) = found.unwrap_or_else(|| panic!("{}: {length} bytes of stack are not enough", row.name));
        assert!(most <= length - length / 5, "{}: less than a fifth of {length} bytes is to spare: {most} are touched", row.name);
        let most = most.next_multiple_of(16);
        for less in [most - 16, most / 32 * 16] {
            assert_eq!(in_a_process(row, less), None, "{}: {less} bytes are enough, and {most} were touched", row.name);
        }
        println!("stack: {} touches {most} of {length} bytes, on {inputs} inputs", row.name);
    }
    println!(
        "stack: {} functions, each on the bytes that the header states and on no more; less than they touch is not enough",
        ROWS.len()
    );
}
