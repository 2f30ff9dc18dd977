//! How a command ends, and what it writes.
use crate::descriptors;
use std::ffi::OsStr;
use std::io::{ErrorKind, Write};
use std::path::Path;
use std::{fmt, io};

/// The program's exit status; the worse of two is the larger.
#[derive(Clone, Copy, Debug, PartialEq, Eq, PartialOrd, Ord)]
pub enum Status {
    Done = 0,
    /// The rules refuse a source or an edit, or this program refuses a file.
    Refused = 1,
    /// Wrong usage, or the system said no.
    Failed = 2,
}

/// Why a command goes no further. A message has no line feed at its end, and may be empty.
#[derive(Debug, PartialEq)]
pub struct Stop {
    pub status: Status,
    pub message: String,
}

impl Stop {
    pub fn refused(message: impl fmt::Display) -> Self {
        Self { status: Status::Refused, message: message.to_string() }
    }

    pub fn failed(message: impl fmt::Display) -> Self {
        Self { status: Status::Failed, message: message.to_string() }
    }

    /// The system said no about a file.
    pub fn system(path: &Path, error: &io::Error) -> Self {
        Self::failed(format!("{}: {}", named(path), reason(error)))
    }

    pub fn usage(message: impl fmt::Display, command: &str) -> Self {
        let command = if command.is_empty() { String::new() } else { format!("{command} ") };
        Self::failed(format!("{message}\n`marker {command}--help` tells more"))
    }
}

/// What the system says, without its number.
pub fn reason(error: &io::Error) -> String {
    let text = error.to_string();
    text.split(" (os error").next().unwrap_or(&text).to_string()
}

/// A file's name as text that does nothing to a terminal.
pub fn named(name: impl AsRef<OsStr>) -> String {
    name.as_ref().to_string_lossy().chars().map(|c| if c.is_control() { '?' } else { c }).collect()
}

fn write(text: &[u8]) -> io::Result<()> {
    descriptors::file(1)?.write_all(text)
}

/// Writes to standard output. Where nobody reads on, nothing is said about it.
pub fn print(text: impl AsRef<[u8]>) -> Result<(), Stop> {
    write(text.as_ref()).map_err(|error| match error.kind() {
        ErrorKind::BrokenPipe => Stop::failed(""),
        _ => Stop::failed(format!("standard output: {}", reason(&error))),
    })
}

/// Says that something is done: where standard output doesn't take it, on standard error, for it is done all the same.
pub fn announce(text: &str) {
    if write(format!("{text}\n").as_bytes()).is_err() {
        warn(text);
    }
}

/// Writes to standard error; there is nowhere to say that it could not be written.
pub fn warn(text: &str) {
    let _ = io::stderr().lock().write_all(format!("{text}\n").as_bytes());
}

/// Writes why a command goes no further. A refusal begins with its file, so that an editor finds the place.
pub fn complain(stop: &Stop) {
    match stop {
        Stop { message, .. } if message.is_empty() => {}
        Stop { status: Status::Failed, message } => warn(&format!("marker: {message}")),
        Stop { message, .. } => warn(message),
    }
}
